/* How appends and segment switches end, for embedding.sh: of records of each length, by several sessions in one thread,
 * and on a disk that fails. One that never ended would be a fault of the library's. */
#include "pgwal.h"
#include <inttypes.h>

enum { MOST = 8 };

static char data[1 << 20];

/* So many sessions append in turn, until one is refused; prints how many did, and what the last one was told. */
static void appends(uint32_t ring, uint32_t sessions, size_t len, int rounds) {
  pgwal_setup setup = {
      .seg_size = 16 << 20, .sysid = 1, .ring_pages = ring, .cap_segments = 64, .sessions = sessions + 1};
  static pgwal_log log;
  pgwal_session session[MOST];
  pgwal_log_found found;
  uint32_t answer = pgwal_open("pg_ends", &setup, &log, &found);
  for (uint32_t i = 0; i < sessions && answer == PGWAL_DONE; i++) answer = pgwal_session_new(&log, &session[i]);
  pgwal_record record = {.xid = 1, .rmid = 128, .data = data, .len = len};
  pgwal_place place;
  int done = 0;
  while (done < rounds && answer == PGWAL_DONE) {
    answer = pgwal_append(&session[done % sessions], &record, &place);
    if (answer == PGWAL_DONE) done++;
  }
  for (uint32_t i = 0; i < sessions; i++) pgwal_session_end(&session[i]);
  uint32_t closed = pgwal_close(&log);
  printf("%u pages, %u sessions, %zu bytes: %d, %u, %u\n", ring, sessions, len, done, answer, closed);
  if (system("rm -rf pg_ends")) exit(1);
}

/* Ends a segment behind a record, with a ring that is shorter than what is left of it, and once more, where there is
 * nothing to do; prints whether all was done, where each ended, and where the next record stands. */
static void switches(void) {
  pgwal_setup setup = {.seg_size = 1 << 20, .sysid = 1, .ring_pages = 4, .cap_segments = 4, .sessions = 2};
  static pgwal_log log;
  pgwal_session session = {0};
  pgwal_sealed first = {0}, second = {0};
  pgwal_place place = {0};
  pgwal_record record = {.xid = 1, .rmid = 128, .data = data, .len = 8};
  pgwal_log_found found;
  bool done = pgwal_open("pg_ends", &setup, &log, &found) == PGWAL_DONE &&
              pgwal_session_new(&log, &session) == PGWAL_DONE &&
              pgwal_append(&session, &record, &place) == PGWAL_DONE && pgwal_switch(&session, &first) == PGWAL_DONE &&
              pgwal_switch(&session, &second) == PGWAL_DONE && pgwal_append(&session, &record, &place) == PGWAL_DONE;
  if (session.log) pgwal_session_end(&session);
  uint32_t closed = pgwal_close(&log);
  printf("ended: %d, %" PRIx64 ", %" PRIx64 ", %" PRIx64 ", %u\n", done, first.end, second.end, place.start, closed);
  if (system("rm -rf pg_ends")) exit(1);
}

int main(int count, char **words) {
  (void)words;
  if (count > 1) return appends(64, 3, 60000, 60), 0;
  appends(64, 1, 126000, 60);
  appends(64, 1, 261000, 60);
  appends(64, 2, 84000, 60);
  appends(64, 8, 27900, 60);
  appends(64, 8, 130000, 60);
  appends(4, 1, 3900, 60);
  appends(4, 1, 15000, 60);
  appends(4, 4, 1400, 60);
  switches();
  return 0;
}
