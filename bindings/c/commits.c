/* Eight threads commit records behind those that are there, and each prints where its last one stands. From this
 * folder:
 *
 *     cc -std=c11 -O2 -o commits commits.c -L../../crates/pgwal_c/out -lpgwal_c \
 *        -L"$(dirname "$(rt doc)")/c" -los_c -llibc_c -pthread && ./commits [FOLDER [RECORDS [places]]]
 */
#include "pgwal.h"
#include <inttypes.h>

enum { THREADS = 8 };

typedef struct {
  pgwal_log *log;
  uint32_t number, answer;
  long records;
  bool places;
  pgwal_sealed last;
} work;

static void *commit_all(void *p) {
  work *w = p;
  pgwal_session me;
  w->answer = pgwal_session_new(w->log, &me);
  if (w->answer != PGWAL_DONE) return NULL;
  for (long i = 0; i < w->records && w->answer == PGWAL_DONE; i++) {
    char data[64];
    int len = snprintf(data, sizeof data, "thread %u record %ld", w->number, i);
    /* resource manager 128 is the first one that is free for extensions */
    pgwal_record record = {.xid = w->number + 1, .rmid = 128, .data = data, .len = (size_t)len};
    w->answer = pgwal_commit(&me, &record, &w->last);
    if (w->places && w->answer == PGWAL_DONE)
      printf("%" PRIX64 "/%08" PRIX64 " %u\n", w->last.start >> 32, w->last.start & UINT32_MAX, w->number + 1);
  }
  pgwal_session_end(&me);
  return NULL;
}

int main(int count, char **words) {
  pgwal_setup setup = {.seg_size = 16 << 20, .sysid = 1, .ring_pages = 64, .cap_segments = 64, .sessions = THREADS + 1};
  static pgwal_log log;
  pgwal_log_found found;
  uint32_t answer = pgwal_open(count > 1 ? words[1] : "pg_wal", &setup, &log, &found);
  const char *what = pgwal_name(answer);
  fprintf(stderr, "%s; %s found %" PRIu64 " end %" PRIX64 "\n", what, found.damage, found.count, found.end);
  if (answer != PGWAL_DONE) return 1;
  pthread_t threads[THREADS];
  static work works[THREADS];
  for (uint32_t i = 0; i < THREADS; i++) {
    works[i] = (work){.log = &log, .number = i, .records = count > 2 ? atol(words[2]) : 1000, .places = count > 3};
    pthread_create(&threads[i], NULL, commit_all, &works[i]);
  }
  for (int i = 0; i < THREADS; i++) pthread_join(threads[i], NULL);
  answer = pgwal_close(&log);
  for (int i = 0; i < THREADS; i++) {
    fprintf(stderr, "%s at %" PRIX64 "\n", pgwal_name(works[i].answer), works[i].last.start);
    if (answer == PGWAL_DONE) answer = works[i].answer;
  }
  fprintf(stderr, "%s\n", pgwal_name(answer));
  return answer != PGWAL_DONE;
}
