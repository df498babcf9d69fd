/* A write-ahead log for programs in C11: the calls of libpgwal_c.a, forms of them that wait, and the disk of files.
 * Below, pgwal_next reads a log back record by record.
 *
 * pgwal_open begins a log, or goes on with the one that is in the folder: while it is opened all of it is in memory.
 * Each thread has a session of its own. Calls named pgwal_try_ try once and never wait for another thread but for one
 * that is in the midst of a copy; the others wait for the caller, by `pause` of the log between tries. No call prints
 * or aborts.
 *
 * The caller's duties, which nothing checks:
 *  - a session is in one call at a time. It may go from thread to thread, where that is ordered (a lock, a join);
 *  - a handle is not used behind its end, nor in a child behind a fork, nor by a signal handler;
 *  - pgwal_log and pgwal_session stay where they are while they are open; what they hold is not looked into;
 *  - each session but the log's own has ended, and no call is under way, when pgwal_close is called;
 *  - nobody else writes the folder's segments. A lock keeps other programs that take it out;
 *  - whoever makes the disk's calls himself (pgwal_disk_call) makes each as it says, in order, and acknowledges those
 *    alone that were made without an error: a segment is on the disk with its name, what a sync follows is there.
 */
#ifndef PGWAL_H
#define PGWAL_H

/* behind other headers this comes too late under -std=c11: then it is to be defined for the whole program */
#ifndef _GNU_SOURCE
#define _GNU_SOURCE
#endif
#include <dirent.h>
#include <errno.h>
#include <fcntl.h>
#include <pthread.h>
#include <sched.h>
#include <stdatomic.h>
#include <stdbool.h>
#include <stddef.h>
#include <stdint.h>
#include <stdio.h>
#include <stdlib.h>
#include <string.h>
#include <sys/file.h>
#include <sys/stat.h>
#include <unistd.h>

/* What a call answers: one table, of which pgwal_name gives the names. Those from 100 on are of this header. */
#define PGWAL_ANSWERS(X)                                                                        \
  X(PGWAL_DONE, 0, "done")                                                                      \
  X(PGWAL_BUSY, 1, "something is in the way: try again")                                        \
  X(PGWAL_BEHIND, 2, "durable once the disk's calls up to `moment` are acknowledged")           \
  X(PGWAL_FULL, 3, "the log is full")                                                           \
  X(PGWAL_DOWN, 4, "the disk has failed: a record on its way may be found later, or not")       \
  X(PGWAL_MEMORY, 5, "no memory")                                                               \
  X(PGWAL_SETUP, 6, "no log can have this setup")                                               \
  X(PGWAL_UNRESERVED, 7, "the address is above the log's end")                                  \
  X(PGWAL_LONG, 8, "the record has more than 1048576 bytes, or than its share of the ring")     \
  X(PGWAL_MANAGER, 9, "no such resource manager, or a record that the log alone writes")        \
  X(PGWAL_SESSIONS, 10, "as many sessions as the setup allows are there")                       \
  X(PGWAL_MISUSE, 11, "the handle is spent, or what is asked has no meaning")                   \
  X(PGWAL_NONE, 12, "no call of the disk is queued")                                            \
  X(PGWAL_QUEUE, 13, "the queue has no room: the disk's calls have to be made first")           \
  X(PGWAL_WANTED, 14, "a page of the log has to be handed in")                                  \
  X(PGWAL_END, 15, "the log ends")                                                              \
  X(PGWAL_DAMAGED, 16, "the log is damaged there, or has a record that is not read")            \
  X(PGWAL_BEYOND, 17, "a segment is there behind the last one that the log may have")           \
  X(PGWAL_BLOCK, 18, "a block of the record is not right")                                      \
  X(PGWAL_IDLE, 19, "nothing is left to be flushed behind")                                     \
  X(PGWAL_FOLDER, 100, "the folder cannot be made, opened or read")                             \
  X(PGWAL_LOCKED, 101, "another program has the folder")                                        \
  X(PGWAL_OTHERS, 102, "the folder has segments that are not from the first one on, or of another size")

#define PGWAL_ANSWER_(name, number, words) name = number,
enum pgwal_answer { PGWAL_ANSWERS(PGWAL_ANSWER_) };
#undef PGWAL_ANSWER_

#define PGWAL_NAME_(name, number, words) \
  case number: return #name ": " words;
static inline const char *pgwal_name(uint32_t answer) {
  switch (answer) { PGWAL_ANSWERS(PGWAL_NAME_) }
  return "no answer of pgwal's";
}
#undef PGWAL_NAME_

/* What stops a log (PGWAL_DAMAGED), of which pgwal_damage_name gives the names; up to `timeline` it is said of a
 * page. */
#define PGWAL_DAMAGES(X)                                                                                      \
  X(1, magic) X(2, flags) X(3, nolong) X(4, longinside) X(5, segsize) X(6, pagesize) X(7, sysid) X(8, address) \
  X(9, timeline) X(10, claims) X(11, length) X(12, rmgr) X(13, prev) X(14, missing) X(15, nocontinuation)      \
  X(16, remlen) X(17, crc) X(18, malformed) X(19, compressed) X(20, overwritten)

#define PGWAL_DAMAGE_(number, name) \
  case number: return #name;
static inline const char *pgwal_damage_name(uint32_t damage) {
  switch (damage) { PGWAL_DAMAGES(PGWAL_DAMAGE_) }
  return "";
}
#undef PGWAL_DAMAGE_

/* ---- the calls of the library; the forms below are made of these */

/* Bytes of a segment (a power of two, 1 MiB to 1 GiB), the log's id (not 0), pages of 8192 bytes in the ring (4 to
 * 64), segments that the log may fill (1 to 4096), sessions (the log has one itself), and disk calls that the queue
 * has room for (at least what one flush makes is taken). */
typedef struct {
  uint64_t seg_size, sysid;
  uint32_t ring_pages, cap_segments, sessions, calls;
} pgwal_setup;

enum {
  PGWAL_ASK_SPLIT, PGWAL_ASK_APPEND, PGWAL_ASK_FLUSH, PGWAL_ASK_END, PGWAL_ASK_ADD_BLOCK, PGWAL_ASK_ADD_IMAGE,
  PGWAL_ASK_RAISE, PGWAL_ASK_WRITE_BEHIND, PGWAL_ASK_SWITCH
};

typedef struct {
  uint8_t id, fork, will_init, has_image, apply;
  uint16_t hole_offset, hole_len;
  uint32_t spc, db, rel, blk;
  uint64_t len, image_len;
} pgwal_block_asked;

typedef struct {
  uint32_t asked, xid;
  uint8_t rmid, info;
  pgwal_block_asked block;
  uint64_t upto, moment, start, end, detail;
  uint8_t *session;
} pgwal_asked;

enum {
  PGWAL_ASK_TAKE, PGWAL_ASK_ACKNOWLEDGE, PGWAL_ASK_FAIL, PGWAL_ASK_LEAVE, PGWAL_ASK_HAND_IN_FIRST, PGWAL_ASK_OPEN
};
enum { PGWAL_CREATE, PGWAL_WRITE, PGWAL_SYNC };

/* A disk is made without a log. Its pages are handed in (or with `there` 0 that there is none such) until OPEN does
 * not answer WANTED: then it has a log, whose first session it tells, and its calls are taken. At QUEUE the setup's
 * `calls` are too few for what settles the log. */
typedef struct {
  uint32_t asked, kind;
  uint64_t count, segment, seg_size, page;
  uint8_t bytes[8192];
  uint32_t there, damage;
  uint64_t end;
  pgwal_setup setup;
  uint8_t *session;
} pgwal_disk_asked;

typedef struct {
  uint8_t *disk;
} pgwal_disk_made;

enum {
  PGWAL_ASK_BEGIN, PGWAL_ASK_NEXT, PGWAL_ASK_HAND_IN, PGWAL_ASK_DATA, PGWAL_ASK_CLOSE, PGWAL_ASK_TELL_BLOCK,
  PGWAL_ASK_BLOCK_DATA, PGWAL_ASK_IMAGE
};

typedef struct {
  uint32_t asked, xid;
  uint8_t rmid, info, there;
  uint32_t total, damage;
  uint64_t blocks, index;
  pgwal_block_asked block;
  uint64_t seg_size, start, end, prev, segment;
  uint32_t page;
  uint64_t len, offset;
  uint8_t bytes[8192];
} pgwal_reader_asked;

typedef struct {
  uint8_t *reader;
} pgwal_made;

uint32_t pgwal_make_reader(pgwal_made *made);
uint32_t pgwal_reader_call(uint8_t *reader, pgwal_reader_asked *asked);
uint32_t pgwal_make_disk(pgwal_disk_made *made);
uint32_t pgwal_session_call(uint8_t *session, const uint8_t *data, size_t len, pgwal_asked *asked);
uint32_t pgwal_disk_call(uint8_t *disk, pgwal_disk_asked *asked);

/* ---- a log, and the disk of files that makes its calls */

typedef struct {
  int folder, file;       /* the folder, locked; the segment that was written last, or -1 */
  uint64_t segment;       /* which it is */
  int error;              /* errno of the call that failed */
  void (*pause)(void *);  /* between two tries; sched_yield if it is not set */
  void *pause_with;
  pthread_mutex_t lead;   /* who has it leads: flushes, and makes the disk's calls; nobody waits at it */
  _Atomic uint64_t flushed, moment;   /* what the last flush told, of all below which address, since when; 0 at first */
  _Atomic uint64_t come;              /* how many came to flush: while it rises, more may come */
  _Atomic uint32_t asleep;            /* how many sleep until who leads is done */
  pthread_mutex_t sleep_lock;
  pthread_cond_t lead_free;
  uint8_t *session, *disk;
  pthread_mutex_t idle_lock;
  uint8_t **idle;  /* sessions that ended, for those who come */
  uint32_t idle_count;
  pgwal_disk_asked call;
} pgwal_log;

typedef struct {
  pgwal_log *log;
  uint8_t *handle;
  uint64_t come;  /* how many had come to flush when it did last: if more have since, there is company */
} pgwal_session;

/* A block that a record references. Its image is the page's bytes before and behind a hole of zeros: with the hole they
 * are 8192, and the hole does not begin at 0. */
typedef struct {
  uint8_t id, fork;                /* its number in the record, 0 to 32, rising; 0 main, 1 fsm, 2 vm, 3 init */
  bool will_init, apply;           /* whether redo makes the page anew; whether it puts the image in its place */
  uint16_t hole_offset, hole_len;  /* 0 and 0 where there is no hole */
  uint32_t spc, db, rel, blk;      /* the relation: tablespace, database, number; the block's number in its fork */
  const void *data, *image;        /* what the record has for it, at most 65535 bytes; NULL where it has no image */
  size_t len, image_len;
} pgwal_block;

typedef struct {
  uint32_t xid;          /* the transaction, 0 for none */
  uint8_t rmid, info;    /* the resource manager, and its info bits */
  const void *data;      /* main data */
  size_t len;
  const pgwal_block *blocks;
  size_t block_count;
} pgwal_record;

/* Where a record stands. */
typedef struct {
  uint64_t start, end;
} pgwal_place;

/* All below `upto` is durable since the disk's call `moment`. */
typedef struct {
  uint64_t upto, moment;
} pgwal_hard;

typedef struct {
  uint64_t start, end, moment;
} pgwal_sealed;

/* How often it is paused at most before a sleep: a millisecond or so of yields. */
enum { PGWAL_LOOKS = 1000 };

static inline void pgwal_pause(pgwal_log *log) {
  if (log->pause) log->pause(log->pause_with);
  else sched_yield();
}

/* Whether all below an address was told to be durable by anybody's flush. The moment is stored before the address, and
 * loaded behind it: so it is never too early. */
static inline bool pgwal_is_flushed(pgwal_log *log, uint64_t upto, pgwal_hard *hard) {
  hard->upto = atomic_load(&log->flushed);
  hard->moment = atomic_load(&log->moment);
  return upto > 0 && upto <= hard->upto;
}

static inline bool pgwal_lead(pgwal_log *log) { return pthread_mutex_trylock(&log->lead) == 0; }

static inline void pgwal_lead_no_more(pgwal_log *log) {
  pthread_mutex_unlock(&log->lead);
  atomic_thread_fence(memory_order_seq_cst);
  if (atomic_load(&log->asleep) == 0) return;
  pthread_mutex_lock(&log->sleep_lock);
  pthread_cond_broadcast(&log->lead_free);
  pthread_mutex_unlock(&log->sleep_lock);
}

/* Waits until an address is flushed, or nobody leads: then it leads, and answers true. A sync may take no longer than a
 * sleep, so it pauses first. Who falls asleep is counted before it looks once more, and who leads looks at the count
 * behind its end: one of the two sees the other. */
static inline bool pgwal_lead_or_flushed(pgwal_log *log, uint64_t upto, pgwal_hard *hard) {
  for (uint32_t look = 0; look < PGWAL_LOOKS; look++) {
    if (pgwal_is_flushed(log, upto, hard)) return false;
    if (pgwal_lead(log)) return true;
    pgwal_pause(log);
  }
  bool leads = false;
  pthread_mutex_lock(&log->sleep_lock);
  atomic_fetch_add(&log->asleep, 1);
  atomic_thread_fence(memory_order_seq_cst);
  while (!pgwal_is_flushed(log, upto, hard) && !(leads = pgwal_lead(log)))
    pthread_cond_wait(&log->lead_free, &log->sleep_lock);
  atomic_fetch_sub(&log->asleep, 1);
  pthread_mutex_unlock(&log->sleep_lock);
  return leads;
}

static inline void pgwal_wait_to_lead(pgwal_log *log) {
  pgwal_hard unused;
  while (!pgwal_lead_or_flushed(log, 0, &unused)) continue;
}

/* Lets others come before a sync, since it makes durable what all of them have appended: pauses until nobody has come
 * in two pauses in a row, but four times at most. */
static inline void pgwal_gather(pgwal_log *log) {
  uint64_t before = atomic_load(&log->come);
  for (int looks = 0, still = 0; looks < 4 && still < 2; looks++) {
    pgwal_pause(log);
    uint64_t now = atomic_load(&log->come);
    still = now == before ? still + 1 : 0;
    before = now;
  }
}

static inline void pgwal_segment_name(char name[25], uint64_t segment, uint64_t seg_size) {
  uint64_t in_part = UINT64_C(0x100000000) / seg_size;
  snprintf(name, 25, "%08X%08X%08X", 1u, (unsigned)(segment / in_part), (unsigned)(segment % in_part));
}

static inline bool pgwal_write_all(int file, const void *bytes, size_t len, off_t at) {
  const char *rest = bytes;
  while (len > 0) {
    ssize_t n = pwrite(file, rest, len, at);
    if (n < 0 && errno == EINTR) continue;
    if (n <= 0) return false;
    rest += n, at += n, len -= (size_t)n;
  }
  return true;
}

/* Makes a segment of zeros: under another name, filled and synced, then linked to its own; the folder is synced
 * behind it. A segment that is there is left. */
static inline bool pgwal_make_segment(pgwal_log *log, uint64_t segment, uint64_t seg_size) {
  static const char zeros[65536];
  char name[25], temporary[48];
  pgwal_segment_name(name, segment, seg_size);
  snprintf(temporary, sizeof temporary, "xlogtemp.%d.0", (int)getpid());
  unlinkat(log->folder, temporary, 0);
  int file = openat(log->folder, temporary, O_RDWR | O_CREAT | O_EXCL | O_CLOEXEC, 0600);
  if (file < 0) return false;
  bool done = true;
  for (uint64_t at = 0; done && at < seg_size; at += sizeof zeros)
    done = pgwal_write_all(file, zeros, sizeof zeros, (off_t)at);
  done = done && fsync(file) == 0 && linkat(log->folder, temporary, log->folder, name, 0) == 0;
  int error = errno;
  bool gone = unlinkat(log->folder, temporary, 0) == 0;
  if (done && gone && fsync(log->folder) == 0) {
    if (log->file >= 0) close(log->file);
    log->file = file, log->segment = segment;
    return true;
  }
  if (!done) errno = error;
  close(file);
  return false;
}

/* Makes the call that was taken. The segment that was written stays open until another one is: the system tells a
 * failed write to who had the file open. */
static inline bool pgwal_make_call(pgwal_log *log) {
  pgwal_disk_asked *call = &log->call;
  if (call->kind == PGWAL_CREATE) return pgwal_make_segment(log, call->segment, call->seg_size);
  if (log->file < 0 || log->segment != call->segment) {
    char name[25];
    pgwal_segment_name(name, call->segment, call->seg_size);
    int file = openat(log->folder, name, O_RDWR | O_CLOEXEC);
    if (file < 0) return false;
    if (log->file >= 0) close(log->file);
    log->file = file, log->segment = call->segment;
  }
  if (call->kind == PGWAL_WRITE)
    return pgwal_write_all(log->file, call->bytes, sizeof call->bytes, (off_t)(call->page * sizeof call->bytes));
  return fdatasync(log->file) == 0;
}

/* Makes the calls that are queued, in order, and acknowledges each: up to a sync, with which a flush ends, so that
 * nobody leads for ever while others flush. Whoever calls it leads. */
static inline bool pgwal_make_calls(pgwal_log *log) {
  for (;;) {
    log->call.asked = PGWAL_ASK_TAKE;
    if (pgwal_disk_call(log->disk, &log->call) != PGWAL_DONE) return false;
    if (!pgwal_make_call(log)) {
      log->error = errno ? errno : EIO;
      log->call.asked = PGWAL_ASK_FAIL;
      pgwal_disk_call(log->disk, &log->call);
      return false;
    }
    log->call.asked = PGWAL_ASK_ACKNOWLEDGE;
    pgwal_disk_call(log->disk, &log->call);
    if (log->call.kind == PGWAL_SYNC) return true;
  }
}

/* How many segments' names the folder has, of whatever log; or -1. */
static inline long pgwal_count_names(int folder) {
  int copy = openat(folder, ".", O_RDONLY | O_DIRECTORY | O_CLOEXEC);
  DIR *names = copy < 0 ? NULL : fdopendir(copy);
  if (!names) {
    if (copy >= 0) close(copy);
    return -1;
  }
  long count = 0;
  for (struct dirent *name; (name = readdir(names));)
    count += strlen(name->d_name) == 24 && strspn(name->d_name, "0123456789ABCDEF") == 24;
  closedir(names);
  return count;
}

/* Gives back what of a log was taken. */
static inline uint32_t pgwal_let_go(pgwal_log *log, uint32_t answer) {
  pgwal_asked end = {.asked = PGWAL_ASK_END};
  if (log->session) pgwal_session_call(log->session, (const uint8_t *)"", 0, &end);
  log->call.asked = PGWAL_ASK_LEAVE;
  if (log->disk) pgwal_disk_call(log->disk, &log->call);
  if (log->file >= 0) close(log->file);
  if (log->folder >= 0) close(log->folder);
  free(log->idle);
  pthread_mutex_destroy(&log->lead);
  pthread_mutex_destroy(&log->sleep_lock);
  pthread_cond_destroy(&log->lead_free);
  pthread_mutex_destroy(&log->idle_lock);
  return answer;
}

/* Hands in the page of the call, as its file has it. */
static inline uint32_t pgwal_hand_in_first(pgwal_log *log, int file) {
  pgwal_disk_asked *call = &log->call;
  call->there = 0;
  for (size_t have = 0; file >= 0 && !call->there;) {
    off_t at = (off_t)(call->page * sizeof call->bytes + have);
    ssize_t n = pread(file, call->bytes + have, sizeof call->bytes - have, at);
    if (n < 0 && errno == EINTR) continue;
    if (n < 0) return PGWAL_FOLDER;
    if (n == 0) break;
    have += (size_t)n;
    call->there = have == sizeof call->bytes;
  }
  call->asked = PGWAL_ASK_HAND_IN_FIRST;
  return pgwal_disk_call(log->disk, call);
}

/* Opens a segment to be read, if it is there: DONE; OTHERS where it is no file of the segments' size. */
static inline uint32_t pgwal_open_segment(pgwal_log *log, uint64_t segment, uint64_t seg_size, int *file) {
  char name[25];
  struct stat about;
  pgwal_segment_name(name, segment, seg_size);
  *file = openat(log->folder, name, O_RDONLY | O_CLOEXEC | O_NONBLOCK);
  if (*file < 0) return errno == ENOENT ? PGWAL_DONE : PGWAL_FOLDER;
  if (fstat(*file, &about) == 0 && S_ISREG(about.st_mode) && (uint64_t)about.st_size == seg_size) return PGWAL_DONE;
  close(*file);
  return PGWAL_OTHERS;
}

/* Hands in so many pages of a segment from its first one on, or that it is not there. */
static inline uint32_t pgwal_hand_in_segment(pgwal_log *log, uint64_t segment, const pgwal_setup *setup, bool *there) {
  int file;
  uint32_t answer = pgwal_open_segment(log, segment, setup->seg_size, &file);
  uint64_t pages = answer != PGWAL_DONE ? 0 : file < 0 ? 1 : setup->seg_size / sizeof log->call.bytes;
  *there = answer == PGWAL_DONE && file >= 0;
  for (uint64_t page = 0; answer == PGWAL_DONE && page < pages; page++) {
    log->call.segment = segment, log->call.page = page;
    answer = pgwal_hand_in_first(log, file);
  }
  if (*there) close(file);
  return answer;
}

/* Hands in all segments from 1 on, and that no other one is there. */
static inline uint32_t pgwal_hand_in_folder(pgwal_log *log, const pgwal_setup *setup) {
  uint64_t segment = 0, size = setup->seg_size;
  bool there = true;
  if (size < 1 << 20 || size > 1 << 30 || (size & (size - 1))) return PGWAL_SETUP;
  while (there && segment <= setup->cap_segments) {
    uint32_t answer = pgwal_hand_in_segment(log, ++segment, setup, &there);
    if (answer != PGWAL_DONE) return answer;
  }
  long names = pgwal_count_names(log->folder);
  if (names < 0) return PGWAL_FOLDER;
  return (uint64_t)names == segment - !there ? PGWAL_DONE : PGWAL_OTHERS;
}

/* Opens the log of a folder whose pages were handed in: what else is wanted is not there. */
static inline uint32_t pgwal_open_disk(pgwal_log *log, const pgwal_setup *setup) {
  log->call.setup = *setup;
  for (;;) {
    log->call.asked = PGWAL_ASK_OPEN;
    uint32_t answer = pgwal_disk_call(log->disk, &log->call);
    uint32_t *room = &log->call.setup.calls;
    if (answer == PGWAL_WANTED) answer = pgwal_hand_in_first(log, -1);
    else if (answer == PGWAL_QUEUE && *room < UINT32_MAX / 2) *room = *room ? 2 * *room : 256, answer = PGWAL_DONE;
    else return answer;
    if (answer != PGWAL_DONE) return answer;
  }
}

/* Locks a folder, which is made if it is missing, and puts its name on the disk. */
static inline uint32_t pgwal_take_folder(pgwal_log *log, const char *folder) {
  if (mkdir(folder, 0700) < 0 && errno != EEXIST) return PGWAL_FOLDER;
  log->folder = open(folder, O_RDONLY | O_DIRECTORY | O_CLOEXEC);
  if (log->folder < 0) return PGWAL_FOLDER;
  if (flock(log->folder, LOCK_EX | LOCK_NB) < 0) return PGWAL_LOCKED;
  int above = openat(log->folder, "..", O_RDONLY | O_DIRECTORY | O_CLOEXEC);
  bool settled = above >= 0 && fsync(log->folder) == 0 && fsync(above) == 0;
  if (above >= 0) close(above);
  return settled ? PGWAL_DONE : PGWAL_FOLDER;
}

/* What was found of a log: how many records it has, and where it ends; at DAMAGED where it stops, and by what. */
typedef struct {
  uint64_t count, end;
  const char *damage;
} pgwal_log_found;

/* Begins a log in a folder, or goes on with the one that is there (which is settled as `pgwal run --append` settles
 * one: what stands behind its end is cleared). The folder is made if it is missing, and locked until the close. */
static inline uint32_t pgwal_open(const char *folder, const pgwal_setup *setup, pgwal_log *log,
                                  pgwal_log_found *found) {
  *log = (pgwal_log){.folder = -1, .file = -1};
  *found = (pgwal_log_found){.damage = ""};
  pthread_mutex_init(&log->lead, NULL);
  pthread_mutex_init(&log->sleep_lock, NULL);
  pthread_cond_init(&log->lead_free, NULL);
  pthread_mutex_init(&log->idle_lock, NULL);
  uint32_t answer = pgwal_take_folder(log, folder);
  if (answer != PGWAL_DONE) return pgwal_let_go(log, answer);
  log->idle = calloc(setup->sessions ? setup->sessions : 1, sizeof *log->idle);
  pgwal_disk_made made = {0};
  if (!log->idle || pgwal_make_disk(&made) != PGWAL_DONE) return pgwal_let_go(log, PGWAL_MEMORY);
  log->disk = made.disk;
  answer = pgwal_hand_in_folder(log, setup);
  if (answer == PGWAL_DONE) answer = pgwal_open_disk(log, setup);
  *found = (pgwal_log_found){log->call.count, log->call.end, ""};
  if (answer == PGWAL_DAMAGED) found->damage = pgwal_damage_name(log->call.damage);
  if (answer != PGWAL_DONE) return pgwal_let_go(log, answer);
  log->session = log->call.session;
  while (pgwal_make_calls(log)) continue;
  return log->error ? pgwal_let_go(log, PGWAL_DOWN) : PGWAL_DONE;
}

/* A session for one thread. One that ended is taken up again, else it is split off the log's own. */
static inline uint32_t pgwal_session_new(pgwal_log *log, pgwal_session *me) {
  pgwal_asked asked = {.asked = PGWAL_ASK_SPLIT};
  uint32_t answer = PGWAL_DONE;
  pthread_mutex_lock(&log->idle_lock);
  if (log->idle_count > 0) asked.session = log->idle[--log->idle_count];
  else answer = pgwal_session_call(log->session, (const uint8_t *)"", 0, &asked);
  pthread_mutex_unlock(&log->idle_lock);
  *me = (pgwal_session){.log = log, .handle = asked.session};
  return answer;
}

static inline void pgwal_session_end(pgwal_session *me) {
  pthread_mutex_lock(&me->log->idle_lock);
  me->log->idle[me->log->idle_count++] = me->handle;
  pthread_mutex_unlock(&me->log->idle_lock);
  *me = (pgwal_session){0};
}

static inline uint32_t pgwal_add_block(pgwal_session *me, const pgwal_block *b) {
  pgwal_asked asked = {.asked = PGWAL_ASK_ADD_IMAGE};
  asked.block = (pgwal_block_asked){.id = b->id, .fork = b->fork, .will_init = b->will_init, .apply = b->apply,
                                    .hole_offset = b->hole_offset, .hole_len = b->hole_len,
                                    .spc = b->spc, .db = b->db, .rel = b->rel, .blk = b->blk};
  uint32_t answer = PGWAL_DONE;
  if (b->image) answer = pgwal_session_call(me->handle, b->image, b->image_len, &asked);
  asked.asked = PGWAL_ASK_ADD_BLOCK;
  if (answer == PGWAL_DONE)
    answer = pgwal_session_call(me->handle, (const uint8_t *)(b->len ? b->data : ""), b->len, &asked);
  return answer;
}

/* Appends a record, by one try: DONE, BUSY, QUEUE, FULL, DOWN, LONG, MANAGER, BLOCK, MEMORY. Where half the ring is not
 * written it writes that first, into the queue, and where the queue has no room answers QUEUE: then its calls are to be
 * made. A session's share, which LONG speaks of, is half the ring less a page, divided by the sessions of the setup; a
 * record takes up its bytes, a 256th more and 128. */
static inline uint32_t pgwal_try_append(pgwal_session *me, const pgwal_record *r, pgwal_place *place) {
  pgwal_asked asked = {.asked = PGWAL_ASK_APPEND, .xid = r->xid, .rmid = r->rmid, .info = r->info};
  for (size_t i = 0; i < r->block_count; i++) {
    uint32_t added = pgwal_add_block(me, &r->blocks[i]);
    if (added != PGWAL_DONE) return added;
  }
  uint32_t answer = pgwal_session_call(me->handle, (const uint8_t *)(r->len ? r->data : ""), r->len, &asked);
  *place = (pgwal_place){asked.start, asked.end};
  return answer;
}

/* Ends the segment, by one try: DONE, BUSY, QUEUE, FULL, DOWN. At DONE `place` is the switch's, which takes up the rest
 * of the segment; or twice the log's end, where that is a segment's start already. Behind QUEUE a switch is on its way:
 * nobody appends, and the session is asked for nothing else, until this answers DONE or DOWN. */
static inline uint32_t pgwal_try_switch(pgwal_session *me, pgwal_place *place) {
  pgwal_asked asked = {.asked = PGWAL_ASK_SWITCH};
  uint32_t answer = pgwal_session_call(me->handle, (const uint8_t *)"", 0, &asked);
  *place = (pgwal_place){asked.start, asked.end};
  return answer;
}

/* Asks for all below an address to be durable, by one try: DONE, BUSY, QUEUE, BEHIND, UNRESERVED (then
 * `hard->upto` is the log's end), DOWN. */
static inline uint32_t pgwal_try_flush(pgwal_session *me, uint64_t upto, pgwal_hard *hard) {
  pgwal_asked asked = {.asked = PGWAL_ASK_FLUSH, .upto = upto};
  uint32_t answer = pgwal_session_call(me->handle, (const uint8_t *)"", 0, &asked);
  *hard = (pgwal_hard){answer == PGWAL_UNRESERVED ? asked.end : asked.upto, asked.moment};
  return answer;
}

/* Counts what the session has appended as answered, by one try: DONE, BUSY. It is not durable before a flush. */
static inline uint32_t pgwal_try_raise(pgwal_session *me) {
  pgwal_asked asked = {.asked = PGWAL_ASK_RAISE};
  return pgwal_session_call(me->handle, (const uint8_t *)"", 0, &asked);
}

/* Flushes what any session has answered so, whole pages first, by one try: DONE, BUSY, QUEUE, DOWN; BEHIND, or IDLE
 * where nothing is left to be flushed: then a flush of `hard->upto` tells once it is durable. */
static inline uint32_t pgwal_try_write_behind(pgwal_session *me, pgwal_hard *hard) {
  pgwal_asked asked = {.asked = PGWAL_ASK_WRITE_BEHIND};
  uint32_t answer = pgwal_session_call(me->handle, (const uint8_t *)"", 0, &asked);
  *hard = (pgwal_hard){asked.upto, asked.moment};
  return answer;
}

/* Whether a try is to be made again; behind what took it back. Whoever calls it leads. */
static inline bool pgwal_try_again(pgwal_log *log, uint32_t *answer) {
  if (*answer != PGWAL_BEHIND && *answer != PGWAL_QUEUE && *answer != PGWAL_BUSY) return false;
  pgwal_make_calls(log);
  if (log->error) {
    *answer = PGWAL_DOWN;
    return false;
  }
  if (*answer == PGWAL_BUSY) pgwal_pause(log);
  return true;
}

/* Makes all below an address durable. One thread at a time leads: it writes and syncs what all others have appended,
 * who then find it done. */
static inline uint32_t pgwal_flush(pgwal_session *me, uint64_t upto, pgwal_hard *hard) {
  pgwal_log *log = me->log;
  uint64_t before = atomic_fetch_add(&log->come, 1);
  bool company = before != me->come;
  me->come = before + 1;
  if (!pgwal_lead_or_flushed(log, upto, hard)) return PGWAL_DONE;
  if (company) pgwal_gather(log);
  uint32_t answer = PGWAL_DONE;
  if (!pgwal_is_flushed(log, upto, hard)) {
    do answer = pgwal_try_flush(me, upto, hard);
    while (pgwal_try_again(log, &answer));
    if (answer == PGWAL_DONE) {
      atomic_store(&log->moment, hard->moment);
      atomic_store(&log->flushed, hard->upto);
    }
  }
  pgwal_lead_no_more(log);
  return answer;
}

/* Makes durable what was answered ahead of the disk, but for what comes in meanwhile: whole pages first, so that a call
 * behind it may find the last one's rest. How soon a commit becomes durable is up to the thread that calls this. */
static inline uint32_t pgwal_write_behind(pgwal_session *me, pgwal_hard *hard) {
  uint32_t answer;
  pgwal_wait_to_lead(me->log);
  do answer = pgwal_try_write_behind(me, hard);
  while (answer != PGWAL_BEHIND && pgwal_try_again(me->log, &answer));
  pgwal_lead_no_more(me->log);
  return answer == PGWAL_BEHIND || answer == PGWAL_IDLE ? pgwal_flush(me, hard->upto, hard) : answer;
}

/* Appends a record, and waits for its place. Where calls have to be made first, and another thread makes some, it tries
 * again at once. */
static inline uint32_t pgwal_append(pgwal_session *me, const pgwal_record *record, pgwal_place *place) {
  for (;;) {
    uint32_t answer = pgwal_try_append(me, record, place);
    if (answer != PGWAL_BUSY && answer != PGWAL_QUEUE) return answer;
    if (answer == PGWAL_BUSY || !pgwal_lead(me->log)) {
      pgwal_pause(me->log);
      continue;
    }
    bool again = pgwal_try_again(me->log, &answer);
    pgwal_lead_no_more(me->log);
    if (!again) return answer;
  }
}

/* Appends a record, and makes it durable. */
static inline uint32_t pgwal_commit(pgwal_session *me, const pgwal_record *record, pgwal_sealed *sealed) {
  pgwal_place place;
  pgwal_hard hard;
  uint32_t answer = pgwal_append(me, record, &place);
  if (answer != PGWAL_DONE) return answer;
  answer = pgwal_flush(me, place.end, &hard);
  *sealed = (pgwal_sealed){place.start, place.end, hard.moment};
  return answer;
}

/* Appends a record, and counts it as answered: it is durable once anybody has flushed its end, as pgwal_write_behind
 * does. */
static inline uint32_t pgwal_commit_async(pgwal_session *me, const pgwal_record *record, pgwal_place *place) {
  uint32_t answer = pgwal_append(me, record, place);
  if (answer != PGWAL_DONE) return answer;
  while ((answer = pgwal_try_raise(me)) == PGWAL_BUSY) pgwal_pause(me->log);
  return answer;
}

/* Ends the segment, and makes all of it durable: the next record stands in the next one. Behind a call that failed it
 * is tried on until the log tells it, so that no lock stays held that others wait for. */
static inline uint32_t pgwal_switch(pgwal_session *me, pgwal_sealed *sealed) {
  pgwal_place place;
  pgwal_hard hard;
  uint32_t answer;
  pgwal_wait_to_lead(me->log);
  while ((answer = pgwal_try_switch(me, &place)) == PGWAL_BUSY || answer == PGWAL_QUEUE) {
    pgwal_make_calls(me->log);
    if (answer == PGWAL_BUSY) pgwal_pause(me->log);
  }
  pgwal_lead_no_more(me->log);
  if (answer != PGWAL_DONE) return answer;
  answer = pgwal_flush(me, place.end, &hard);
  *sealed = (pgwal_sealed){place.start, place.end, hard.moment};
  return answer;
}

/* Flushes all that is reserved, ends the sessions, and gives the folder back. The log is spent, whatever it answers:
 * DONE says that all is durable. */
static inline uint32_t pgwal_close(pgwal_log *log) {
  pgwal_session own = {.log = log, .handle = log->session};
  pgwal_hard hard;
  uint32_t answer = pgwal_flush(&own, UINT64_MAX, &hard);
  if (answer == PGWAL_UNRESERVED) answer = pgwal_flush(&own, hard.upto, &hard);
  pgwal_asked end = {.asked = PGWAL_ASK_END};
  while (log->idle_count > 0)
    pgwal_session_call(log->idle[--log->idle_count], (const uint8_t *)"", 0, &end);
  return pgwal_let_go(log, answer);
}

/* ---- reading a log back */

/* Reads a folder's log. One reader is in one call at a time; it takes no lock, and may read beside an open log. */
typedef struct {
  int folder, file;  /* the segment that was read last, or -1 */
  uint64_t segment, seg_size;
  int error;         /* errno of a read that failed */
  uint8_t *handle, *data;
  size_t room;
  pgwal_block blocks[33];
  pgwal_reader_asked call;
} pgwal_reader;

/* A record that was read; what it has lies in the reader, until the next one is read. */
typedef struct {
  uint64_t start, end, prev;  /* where it starts and ends, and where the one before starts */
  uint32_t total, xid;        /* its bytes in all; its transaction */
  uint8_t rmid, info;
  const pgwal_block *blocks;  /* the blocks that it references */
  size_t block_count;
  const uint8_t *data;
  size_t len;
  const char *damage;         /* at DAMAGED: which, met at `start` */
} pgwal_found;

/* Lets go what a reader holds, but for its handle, which is never freed. */
static inline void pgwal_read_end(pgwal_reader *reader) {
  reader->call.asked = PGWAL_ASK_CLOSE;
  if (reader->handle) pgwal_reader_call(reader->handle, &reader->call);
  if (reader->file >= 0) close(reader->file);
  if (reader->folder >= 0) close(reader->folder);
  free(reader->data);
}

/* Reads the log in a folder from an address on, at which or behind which the first record starts; 0 is where a log of
 * pgwal's begins. */
static inline uint32_t pgwal_read(const char *folder, uint64_t seg_size, uint64_t start, pgwal_reader *reader) {
  *reader = (pgwal_reader){.folder = -1, .file = -1, .seg_size = seg_size};
  pgwal_made made = {0};
  reader->folder = open(folder, O_RDONLY | O_DIRECTORY | O_CLOEXEC);
  uint32_t answer = reader->folder < 0 ? (uint32_t)PGWAL_FOLDER : pgwal_make_reader(&made);
  if (answer == PGWAL_DONE) {
    reader->handle = made.reader;
    reader->call.asked = PGWAL_ASK_BEGIN;
    reader->call.seg_size = seg_size;
    reader->call.start = start ? start : seg_size;
    answer = pgwal_reader_call(reader->handle, &reader->call);
  }
  if (answer != PGWAL_DONE) pgwal_read_end(reader);
  return answer;
}

/* Reads the page that is wanted into the call: it is there if its file has all of it. */
static inline bool pgwal_read_page(pgwal_reader *reader) {
  pgwal_reader_asked *call = &reader->call;
  call->there = 0;
  if (reader->file < 0 || reader->segment != call->segment) {
    char name[25];
    pgwal_segment_name(name, call->segment, reader->seg_size);
    if (reader->file >= 0) close(reader->file);
    reader->file = openat(reader->folder, name, O_RDONLY | O_CLOEXEC);
    reader->segment = call->segment;
    if (reader->file < 0) return errno == ENOENT;
  }
  size_t have = 0;
  while (have < sizeof call->bytes) {
    off_t at = (off_t)call->page * (off_t)sizeof call->bytes + (off_t)have;
    ssize_t n = pread(reader->file, call->bytes + have, sizeof call->bytes - have, at);
    if (n < 0 && errno == EINTR) continue;
    if (n < 0) return false;
    if (n == 0) return true;
    have += (size_t)n;
  }
  call->there = 1;
  return true;
}

/* Reads so many bytes of the record that came: its main data, a block's data or its image. */
static inline uint32_t pgwal_read_bytes(pgwal_reader *reader, uint32_t asked, uint8_t *to, size_t len) {
  for (size_t have = 0; have < len; have += reader->call.len) {
    reader->call.asked = asked;
    reader->call.offset = have;
    uint32_t answer = pgwal_reader_call(reader->handle, &reader->call);
    if (answer != PGWAL_DONE) return answer;
    memcpy(to + have, reader->call.bytes, reader->call.len);
  }
  return PGWAL_DONE;
}

/* Reads the block of that record at an index. Its bytes go behind those that `to` tells of, and move it. */
static inline uint32_t pgwal_read_block(pgwal_reader *reader, size_t index, uint8_t **to) {
  reader->call.asked = PGWAL_ASK_TELL_BLOCK, reader->call.index = index;
  uint32_t answer = pgwal_reader_call(reader->handle, &reader->call);
  if (answer != PGWAL_DONE) return answer;
  pgwal_block_asked b = reader->call.block;
  uint8_t *image = *to + b.len;
  reader->blocks[index] = (pgwal_block){
      .id = b.id, .fork = b.fork, .will_init = b.will_init, .apply = b.apply, .hole_offset = b.hole_offset,
      .hole_len = b.hole_len, .spc = b.spc, .db = b.db, .rel = b.rel, .blk = b.blk, .data = *to,
      .image = b.has_image ? image : NULL, .len = (size_t)b.len, .image_len = (size_t)b.image_len};
  answer = pgwal_read_bytes(reader, PGWAL_ASK_BLOCK_DATA, *to, (size_t)b.len);
  if (answer == PGWAL_DONE) answer = pgwal_read_bytes(reader, PGWAL_ASK_IMAGE, image, (size_t)b.image_len);
  *to = image + b.image_len;
  return answer;
}

/* Reads what the record that came has: main data, and blocks. A record of so many bytes has no more of them. */
static inline uint32_t pgwal_read_record(pgwal_reader *reader, pgwal_found *found) {
  if (found->total > reader->room) {
    uint8_t *data = realloc(reader->data, found->total);
    if (!data) return PGWAL_MEMORY;
    reader->data = data, reader->room = found->total;
  }
  uint32_t answer = pgwal_read_bytes(reader, PGWAL_ASK_DATA, reader->data, found->len);
  uint8_t *to = reader->data + found->len;
  for (size_t i = 0; answer == PGWAL_DONE && i < found->block_count; i++) answer = pgwal_read_block(reader, i, &to);
  found->data = reader->data, found->blocks = reader->blocks;
  return answer;
}

/* Hands in the page that is wanted, and up to so many of its segment from there on. */
static inline uint32_t pgwal_hand_in(pgwal_reader *reader, uint32_t count) {
  pgwal_reader_asked *call = &reader->call;
  for (uint32_t n = 0; n < count; n++, call->page++) {
    if (!pgwal_read_page(reader)) {
      reader->error = errno ? errno : EIO;
      return PGWAL_DOWN;
    }
    if (n > 0 && !call->there) break;
    call->asked = PGWAL_ASK_HAND_IN;
    uint32_t answer = pgwal_reader_call(reader->handle, call);
    if (answer != PGWAL_DONE) return answer;
  }
  return PGWAL_DONE;
}

/* The next record: DONE; END, where `end` says where the log ends: asked again it goes on if more was written; DAMAGED,
 * told again from then on; DOWN, where a file could not be read (`error`); MEMORY. */
static inline uint32_t pgwal_next(pgwal_reader *reader, pgwal_found *found) {
  pgwal_reader_asked *call = &reader->call;
  uint32_t answer;
  /* A record is taken up anew at each page that is wanted: so twice as many are handed in each time. */
  for (uint32_t count = 1;; count = count < 1024 ? 2 * count : count) {
    call->asked = PGWAL_ASK_NEXT;
    answer = pgwal_reader_call(reader->handle, call);
    if (answer != PGWAL_WANTED) break;
    answer = pgwal_hand_in(reader, count);
    if (answer != PGWAL_DONE) return answer;
  }
  *found = (pgwal_found){.start = call->start, .end = call->end};
  if (answer == PGWAL_DAMAGED) found->damage = pgwal_damage_name(call->damage);
  if (answer != PGWAL_DONE) return answer;
  *found = (pgwal_found){.start = call->start, .end = call->end, .prev = call->prev, .total = call->total,
                         .xid = call->xid, .rmid = call->rmid, .info = call->info,
                         .block_count = (size_t)call->blocks, .len = (size_t)call->len};
  return pgwal_read_record(reader, found);
}

#endif
