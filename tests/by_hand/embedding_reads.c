/* Reads a log back, for embedding.sh: each record's place and transaction, as commits.c tells them, and whether its
 * main data is what that program wrote; then how the log ends. */
#include "pgwal.h"
#include <inttypes.h>

int main(int count, char **words) {
  static pgwal_reader reader;
  uint32_t answer = pgwal_read(count > 1 ? words[1] : "pg_wal", 16 << 20, 0, &reader);
  if (answer != PGWAL_DONE) return fprintf(stderr, "%s\n", pgwal_name(answer)), 1;
  static char data[1 << 20];
  pgwal_found found;
  while ((answer = pgwal_next(&reader, &found)) == PGWAL_DONE) {
    unsigned thread;
    long record;
    memcpy(data, found.data, found.len);
    data[found.len] = 0;
    bool as_written = sscanf(data, "thread %u record %ld", &thread, &record) == 2 && thread + 1 == found.xid;
    printf("%" PRIX64 "/%08" PRIX64 " %u%s\n", found.start >> 32, found.start & UINT32_MAX, found.xid,
           as_written ? "" : " other data");
  }
  fprintf(stderr, "%s%s\n", answer == PGWAL_DAMAGED ? found.damage : "", pgwal_name(answer));
  pgwal_read_end(&reader);
  return answer != PGWAL_END;
}
