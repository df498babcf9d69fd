/* Threads of a program in C commit records, or append them alone, as bench/embedded.py asks: it prints how many, and
 * how many microseconds they took, from when all threads have a session to when the last is done. */
#include "pgwal.h"
#include <time.h>

enum { MOST = 64, LONGEST = 8192 };

typedef struct {
  pgwal_log *log;
  pthread_barrier_t *begun;
  long records;
  size_t len;
  bool commits;
  uint32_t answer;
} work;

static void *work_off(void *p) {
  work *w = p;
  static const char data[LONGEST];
  pgwal_session me;
  pgwal_record record = {.xid = 1, .rmid = 128, .data = data, .len = w->len};
  w->answer = pgwal_session_new(w->log, &me);
  bool has_session = w->answer == PGWAL_DONE;
  pthread_barrier_wait(w->begun);
  for (long i = 0; i < w->records && w->answer == PGWAL_DONE; i++) {
    pgwal_place place;
    pgwal_sealed sealed;
    w->answer = w->commits ? pgwal_commit(&me, &record, &sealed) : pgwal_append(&me, &record, &place);
  }
  if (has_session) pgwal_session_end(&me);
  return NULL;
}

static double now(void) {
  struct timespec t;
  clock_gettime(CLOCK_MONOTONIC, &t);
  return t.tv_sec * 1e6 + t.tv_nsec / 1e3;
}

int main(int count, char **words) {
  if (count != 5) return fprintf(stderr, "usage: embedded THREADS RECORDS commits|appends BYTES\n"), 2;
  int threads = atoi(words[1]);
  if (threads < 1 || threads > MOST || atol(words[4]) < 0 || atol(words[4]) > LONGEST)
    return fprintf(stderr, "1 to %d threads, 0 to %d bytes\n", MOST, LONGEST), 2;
  pgwal_setup setup = {
      .seg_size = 16 << 20, .sysid = 1, .ring_pages = 64, .cap_segments = 256, .sessions = (uint32_t)threads + 1};
  static pgwal_log log;
  pgwal_log_found found;
  uint32_t answer = pgwal_open("pg_wal", &setup, &log, &found);
  if (answer != PGWAL_DONE) return fprintf(stderr, "%s\n", pgwal_name(answer)), 1;
  /* the first segment is made before the time is taken */
  pgwal_session own = {.log = &log, .handle = log.session};
  pgwal_record first = {.xid = 1, .rmid = 128, .data = "a", .len = 1};
  pgwal_sealed sealed;
  answer = pgwal_commit(&own, &first, &sealed);
  pthread_barrier_t begun;
  pthread_barrier_init(&begun, NULL, (unsigned)threads + 1);
  pthread_t ids[MOST];
  static work works[MOST];
  for (int i = 0; i < threads; i++) {
    works[i] = (work){&log, &begun, atol(words[2]), (size_t)atol(words[4]), words[3][0] == 'c', 0};
    pthread_create(&ids[i], NULL, work_off, &works[i]);
  }
  pthread_barrier_wait(&begun);
  double from = now();
  for (int i = 0; i < threads; i++) pthread_join(ids[i], NULL);
  double took = now() - from;
  for (int i = 0; i < threads; i++)
    if (answer == PGWAL_DONE) answer = works[i].answer;
  if (answer == PGWAL_DONE) answer = pgwal_close(&log);
  if (answer != PGWAL_DONE) return fprintf(stderr, "%s\n", pgwal_name(answer)), 1;
  printf("%s %ld\nmicroseconds %.0f\n", words[3], threads * atol(words[2]), took);
  return 0;
}
