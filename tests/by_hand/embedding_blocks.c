/* Records with blocks, answered ahead of the disk, for embedding.sh: one with two blocks, of which one has an image
 * with a hole, is appended, flushed behind, and read back. Prints what was refused and answered, and whether what
 * came back is what was written. */
#include "pgwal.h"

static uint8_t image[8192 - 100], data[70000];
static const pgwal_block blocks[] = {
    {.id = 0, .fork = 2, .will_init = true, .spc = 1663, .db = 5, .rel = 16384, .blk = 7, .data = "one", .len = 3},
    {.id = 32, .apply = true, .hole_offset = 24, .hole_len = 100, .spc = 1663, .db = 5, .rel = 16385,
     .blk = 0xFFFFFFFE, .data = data, .len = 5000, .image = image, .image_len = sizeof image},
};

static bool same_bytes(const void *a, size_t len, const void *b, size_t other) {
  return len == other && (len == 0 || memcmp(a, b, len) == 0);
}

static bool same_block(const pgwal_block *a, const pgwal_block *b) {
  return a->id == b->id && a->fork == b->fork && a->will_init == b->will_init && a->apply == b->apply &&
         a->hole_offset == b->hole_offset && a->hole_len == b->hole_len && a->spc == b->spc && a->db == b->db &&
         a->rel == b->rel && a->blk == b->blk && same_bytes(a->data, a->len, b->data, b->len) &&
         !a->image == !b->image && same_bytes(a->image, a->image_len, b->image, b->image_len);
}

/* What a record is told that has one block like the second, but for a change. */
static uint32_t refused(pgwal_session *me, pgwal_record record, pgwal_block block) {
  pgwal_place place;
  pgwal_block two[] = {blocks[0], block};
  record.blocks = two;
  return pgwal_try_append(me, &record, &place);
}

int main(int count, char **words) {
  const char *folder = count > 1 ? words[1] : "pg_wal";
  pgwal_setup setup = {.seg_size = 16 << 20, .sysid = 1, .ring_pages = 64, .cap_segments = 4, .sessions = 2};
  static pgwal_log log;
  pgwal_log_found opened;
  pgwal_session me;
  for (size_t i = 0; i < sizeof data; i++) data[i] = (uint8_t)(i * 7);
  for (size_t i = 0; i < sizeof image; i++) image[i] = (uint8_t)(i * 5 + 1);
  uint32_t answer = pgwal_open(folder, &setup, &log, &opened);
  if (answer == PGWAL_DONE) answer = pgwal_session_new(&log, &me);
  if (answer != PGWAL_DONE) return fprintf(stderr, "%s\n", pgwal_name(answer)), 1;

  pgwal_record record = {.xid = 3, .rmid = 128, .data = data, .len = 300, .blocks = blocks, .block_count = 2};
  pgwal_block falling = blocks[1], longer = blocks[1], holed = blocks[1];
  falling.id = 0, longer.len = 65536, holed.hole_len = 99;
  printf("refused: %u %u %u\n", refused(&me, record, falling), refused(&me, record, longer),
         refused(&me, record, holed));

  pgwal_hard hard, before;
  pgwal_place place, next;
  pgwal_record plain = {.xid = 4, .rmid = 128, .data = "main", .len = 4};
  uint32_t nothing = pgwal_write_behind(&me, &before);
  uint32_t ahead = pgwal_commit_async(&me, &record, &place);
  uint32_t more = pgwal_commit_async(&me, &plain, &next);
  /* whole pages first, then the rest */
  do answer = pgwal_write_behind(&me, &hard);
  while (answer == PGWAL_DONE && hard.upto < next.end);
  printf("answered: %u %u %u %u, %d\n", nothing, ahead, more, answer, before.upto <= place.start && hard.moment > 0);
  pgwal_session_end(&me);
  printf("closed: %u\n", pgwal_close(&log));

  static pgwal_reader reader;
  pgwal_found found;
  answer = pgwal_read(folder, 16 << 20, 0, &reader);
  if (answer == PGWAL_DONE) answer = pgwal_next(&reader, &found);
  printf("read: %u %d\n", answer,
         answer == PGWAL_DONE && found.start == place.start && found.end == place.end && found.block_count == 2 &&
             same_bytes(found.data, found.len, data, 300) && same_block(&found.blocks[0], &blocks[0]) &&
             same_block(&found.blocks[1], &blocks[1]));
  answer = pgwal_next(&reader, &found);
  printf("then: %u %d\n", answer, answer == PGWAL_DONE && found.start == next.start && found.block_count == 0 &&
                                      same_bytes(found.data, found.len, "main", 4));
  printf("then: %u\n", pgwal_next(&reader, &found));
  pgwal_read_end(&reader);
  return 0;
}
