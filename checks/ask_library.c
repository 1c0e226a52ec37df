/* Asks the library what it reads from standard input, and writes the answers to standard output; library.py starts it.
 *
 * A question is in numbers of 8 bytes, the least byte first, and of bytes with their length before them: its kind (0 a run, 1 a
 * login, 2 a host's key), the growth of memory to refuse, from 1 (0: none), and how many threads ask, then the parts of its kind.
 * An answer: how many growths there were, how many blocks were not given back, whether all threads were answered alike, the
 * NUMBERS numbers of the answer, and the whole buffers: of reasons and of options that are passed on the two numbers of each row,
 * then the bytes. Each part that is lent ends where a page begins that may not be touched, and each call has a thread of its
 * own, with a stack of STACK bytes. The buffers hold 0xa5 before the call. */
#define _GNU_SOURCE
#include "../bindings/c/ssh_audit.h"

#include <pthread.h>
#include <stdatomic.h>
#include <stdio.h>
#include <stdlib.h>
#include <string.h>
#include <sys/mman.h>
#include <unistd.h>

#ifndef STACK
#define STACK 65536
#endif
#define PAGE 4096
#define THREADS 8
#define NUMBERS 13

/* ---- memory that is counted, and refused at one growth (linked with --wrap) */

static __thread long growths, refused, blocks;
void *__real_malloc(size_t size);
void *__real_realloc(void *block, size_t size);
void __real_free(void *block);

static int is_refused(void) { return ++growths == refused; }

void *__wrap_malloc(size_t size) {
  void *block = is_refused() ? NULL : __real_malloc(size);
  blocks += block != NULL;
  return block;
}

void *__wrap_realloc(void *block, size_t size) {
  void *new = is_refused() ? NULL : __real_realloc(block, size);
  blocks += new != NULL && block == NULL;
  return new;
}

void __wrap_free(void *block) {
  blocks -= block != NULL;
  __real_free(block);
}

/* ---- what is read, and lent */

static uint64_t number(void) {
  uint8_t bytes[8];
  uint64_t value = 0;
  if (fread(bytes, 1, 8, stdin) != 8) exit(0);
  for (int i = 8; i--;) value = value << 8 | bytes[i];
  return value;
}

static void tell(uint64_t value) {
  for (int i = 0; i < 8; i++) putchar((int)(value >> 8 * i & 0xff));
}

static struct {
  void *start;
  size_t size;
} lent[4096];
static size_t lent_count;

/* Room for this many bytes that ends at a page that may not be touched; aligned for a list of structures. */
static void *room(size_t size) {
  size_t whole = (size + PAGE - 1) / PAGE * PAGE + PAGE;
  uint8_t *start = mmap(NULL, whole, PROT_READ | PROT_WRITE, MAP_PRIVATE | MAP_ANONYMOUS, -1, 0);
  if (start == MAP_FAILED || lent_count == sizeof lent / sizeof *lent || mprotect(start + whole - PAGE, PAGE, PROT_NONE)) exit(3);
  lent[lent_count].start = start;
  lent[lent_count++].size = whole;
  return start + whole - PAGE - size;
}

static void give_back(void) {
  while (lent_count--) munmap(lent[lent_count].start, lent[lent_count].size);
  lent_count = 0;
}

static ssh_audit_bytes bytes(void) {
  size_t length = number();
  uint8_t *start = room(length);
  if (fread(start, 1, length, stdin) != length) exit(3);
  return ssh_audit_bytes_of(start, length);
}

/* ---- a question, and its answer */

static struct {
  uint64_t kind, refused, threads;
  size_t words_length, files_length, vouched_length, reasons_length, carried_length, out_length;
  ssh_audit_bytes *words, input, trust;
  ssh_audit_file *files;
  ssh_audit_signed *vouched;
  ssh_audit_login_asked *login;
  ssh_audit_host_asked *host;
} asked;

typedef struct {
  ssh_audit_reason *reasons;
  ssh_audit_carried *carried;
  uint8_t *out;
  uint64_t growths, blocks, numbers[NUMBERS];
} answer;

static void keep_decision(answer *told, ssh_audit_decided d) {
  uint64_t numbers[] = {d.kind, d.code, d.number, d.reasons_length};
  memcpy(told->numbers, numbers, sizeof numbers);
}

static void keep_rights(answer *told, ssh_audit_rights r) {
  uint64_t numbers[] = {r.port, r.agent, r.x11, r.pty, r.user_rc, r.has_command, r.command_length, r.carried_length, r.texts_length};
  memcpy(told->numbers + 4, numbers, sizeof numbers);
}

static void *ask(void *where) {
  answer *told = where;
  growths = blocks = 0;
  refused = (long)asked.refused;
  if (asked.kind == 0) {
    ssh_audit_answer a = ssh_audit_run(asked.words, asked.words_length, asked.files, asked.files_length, asked.input.bytes,
                                       asked.input.length, told->out, asked.out_length);
    told->numbers[0] = a.status;
    told->numbers[1] = a.length;
  } else if (asked.kind == 1) {
    ssh_audit_login_decided d =
        ssh_audit_login(asked.trust.bytes, asked.trust.length, asked.login, asked.vouched, asked.vouched_length, told->reasons,
                        asked.reasons_length, told->carried, asked.carried_length, told->out, asked.out_length);
    keep_decision(told, d.decision);
    keep_rights(told, d.rights);
  } else {
    keep_decision(told, ssh_audit_host(asked.trust.bytes, asked.trust.length, asked.host, asked.vouched, asked.vouched_length,
                                       told->reasons, asked.reasons_length));
  }
  told->growths = (uint64_t)growths;
  told->blocks = (uint64_t)blocks;
  return NULL;
}

static void read_question(void) {
  asked.refused = number();
  asked.threads = number();
  if (asked.kind == 0) {
    asked.words_length = number();
    asked.words = room(asked.words_length * sizeof *asked.words);
    for (size_t i = 0; i < asked.words_length; i++) asked.words[i] = bytes();
    asked.files_length = number();
    asked.files = room(asked.files_length * sizeof *asked.files);
    for (size_t i = 0; i < asked.files_length; i++) {
      asked.files[i].name = bytes();
      asked.files[i].bytes = bytes();
    }
    asked.input = bytes();
    asked.reasons_length = asked.carried_length = 0;
    asked.out_length = number();
    return;
  }
  asked.trust = bytes();
  if (asked.kind == 1) {
    ssh_audit_login_asked *q = asked.login = room(sizeof *q);
    q->offered = bytes(), q->signature = bytes(), q->algorithm = bytes(), q->session = bytes(), q->user = bytes();
    q->address = bytes(), q->host = bytes();
    q->now = number(), q->rsa_minimum = (uint32_t)number(), q->has_host = number(), q->empty_principals_never = number();
  } else {
    ssh_audit_host_asked *q = asked.host = room(sizeof *q);
    q->offered = bytes(), q->signature = bytes(), q->exchange_hash = bytes(), q->host = bytes();
    q->now = number(), q->rsa_minimum = (uint32_t)number(), q->port = (uint16_t)number(), q->empty_principals_never = number();
  }
  asked.vouched_length = number();
  asked.vouched = room(asked.vouched_length * sizeof *asked.vouched);
  for (size_t i = 0; i < asked.vouched_length; i++) {
    asked.vouched[i].key = bytes(), asked.vouched[i].message = bytes(), asked.vouched[i].signature = bytes();
  }
  asked.reasons_length = number(), asked.carried_length = number(), asked.out_length = number();
}

/* Room that holds 0xa5. */
static void *filled(size_t size) { return memset(room(size), 0xa5, size); }

static void lend_buffers(answer *told) {
  told->reasons = filled(asked.reasons_length * sizeof *told->reasons);
  told->carried = filled(asked.carried_length * sizeof *told->carried);
  told->out = filled(asked.out_length);
}

/* Rows are compared by their fields: what is between these is nobody's. */
static int alike(const answer *a, const answer *b) {
  int same = a->growths == b->growths && !memcmp(a->numbers, b->numbers, sizeof a->numbers) && !memcmp(a->out, b->out, asked.out_length);
  for (size_t i = 0; i < asked.reasons_length; i++) same &= a->reasons[i].line == b->reasons[i].line && a->reasons[i].code == b->reasons[i].code;
  for (size_t i = 0; i < asked.carried_length; i++) same &= a->carried[i].name == b->carried[i].name && a->carried[i].length == b->carried[i].length;
  return same;
}

static void tell_buffers(const answer *told) {
  for (size_t i = 0; i < asked.reasons_length; i++) tell(told->reasons[i].line), tell(told->reasons[i].code);
  for (size_t i = 0; i < asked.carried_length; i++) tell(told->carried[i].name), tell(told->carried[i].length);
  fwrite(told->out, 1, asked.out_length, stdout);
}

int main(void) {
  pthread_attr_t small;
  if (pthread_attr_init(&small) || pthread_attr_setstacksize(&small, STACK)) return 3;
  for (;;) {
    answer answers[THREADS] = {0};
    pthread_t threads[THREADS];
    uint64_t same = 1;
    asked.kind = number();
    read_question();
    if (asked.threads < 1 || asked.threads > THREADS) return 3;
    for (size_t i = 0; i < asked.threads; i++) lend_buffers(&answers[i]);
    for (size_t i = 0; i < asked.threads; i++) {
      if (pthread_create(&threads[i], &small, ask, &answers[i])) return 3;
    }
    for (size_t i = 0; i < asked.threads; i++) pthread_join(threads[i], NULL);
    for (size_t i = 1; i < asked.threads; i++) same &= (uint64_t)alike(&answers[0], &answers[i]);
    tell(answers[0].growths);
    tell(answers[0].blocks);
    tell(same);
    for (int i = 0; i < NUMBERS; i++) tell(answers[0].numbers[i]);
    tell_buffers(&answers[0]);
    fflush(stdout);
    give_back();
  }
}
