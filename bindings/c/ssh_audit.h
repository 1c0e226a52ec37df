/* The auditor of OpenSSH's trust files, for C. `checks/library.py` compares this header with the sources of
   `crates/ssh_audit_c`, `crates/ssh_decisions_c` and `crates/ssh_memory`, and tries it.

   What is proved of the answers holds where the caller keeps these rules:
   - No pointer is NULL, also where the length or the count beside it is 0; each is aligned. The inline functions below
     mend NULL.
   - What is lent may be read until the call returns; `out`, `reasons`, `carried` and `texts` are buffers, which it may write.
     Nobody else writes any of it meanwhile.
   - A buffer overlaps nothing else that is lent.
   - A `bool` is 0 or 1.
   - No call from a signal handler, nor in a forked child of a process with threads: a call takes memory by malloc.

   A call reads no file, clock or environment and keeps nothing. Several threads may call at once, each with buffers of its
   own. It gives back all memory that it took. 64 KiB of stack are enough. */
#ifndef SSH_AUDIT_H
#define SSH_AUDIT_H

#include <stdbool.h>
#include <stddef.h>
#include <stdint.h>

#ifdef __cplusplus
extern "C" {
#endif

typedef struct {
  const uint8_t *bytes;
  size_t length;
} ssh_audit_bytes;

/* ---- the program, in one call */

/* A file: the name that words call it by, and its bytes. Of two files with one name the first counts. They may stand in any
   order: a call sorts their names once. */
typedef struct {
  ssh_audit_bytes name;
  ssh_audit_bytes bytes;
} ssh_audit_file;

/* The status that the program ends with: 0 granted or done, 1 denied or something found, 2 a fault, 3 where OpenSSH may let
   in a key that no line lets in here. And the length of the text that it prints. */
typedef struct {
  uint8_t status;
  size_t length;
} ssh_audit_answer;

/* What `ssh_audit WORDS` prints, where these are its files and `input` is its standard input, the file "-". Nothing is added
   to the words: say the time, the user and the files. A word that is not UTF-8 is a usage fault. No words: they are on the
   first line of `input`. The text is written to the front of `out` if `length <= out_length`; else `out` stays as it is,
   and a call with that much room gives the text. Without memory the text is "fault A8\n"; of `review` this may stand behind
   the lines of files that were reviewed before, in the place of the total. */
ssh_audit_answer ssh_audit_run(const ssh_audit_bytes *words, size_t words_length, const ssh_audit_file *files,
                               size_t files_length, const uint8_t *input, size_t input_length, uint8_t *out,
                               size_t out_length);

/* ---- a login and a host's key, by values */

/* A signature that the caller vouches for, with its key's blob and the bytes that it is over. */
typedef struct {
  ssh_audit_bytes key;
  ssh_audit_bytes message;
  ssh_audit_bytes signature;
} ssh_audit_signed;

/* A login by public key. `offered` and `signature` are blobs, `address` is text, `now` is in seconds since 1970-01-01 in UTC.
   `host` is the name of the client's host, if `has_host`. `rsa_minimum`: the fewest bits of an RSA key, 0 for any size.
   `empty_principals_never`: a certificate without principals is for nobody. Expiry times that name no zone are in UTC. A
   session or a user of 2^32 bytes or more is A8: no message of a login holds it. */
typedef struct {
  ssh_audit_bytes offered;
  ssh_audit_bytes signature;
  ssh_audit_bytes algorithm;
  ssh_audit_bytes session;
  ssh_audit_bytes user;
  ssh_audit_bytes address;
  ssh_audit_bytes host;
  uint64_t now;
  uint32_t rsa_minimum;
  bool has_host;
  bool empty_principals_never;
} ssh_audit_login_asked;

/* A host's key. `host` is the name or the address that the client connects to, at `port`. */
typedef struct {
  ssh_audit_bytes offered;
  ssh_audit_bytes signature;
  ssh_audit_bytes exchange_hash;
  ssh_audit_bytes host;
  uint64_t now;
  uint32_t rsa_minimum;
  uint16_t port;
  bool empty_principals_never;
} ssh_audit_host_asked;

/* Kind 0: granted, by the line `number`. Kind 1: denied, and `code` 1 to 6 stands for N1 to N6; `number` is the line of N1 and
   N2, and of N6 the index of the signature that is not vouched for. Kind 2: a fault, and `code` 1 to 8 stands for A1 to A8.
   `reasons_length`: how many reasons there are why lines before that one, or all lines, were passed over; at most 100. */
typedef struct {
  uint8_t kind;
  uint8_t code;
  uint64_t number;
  size_t reasons_length;
} ssh_audit_decided;

/* Why a line was passed over: its number, from 1, and 1 to 20 for G1 to G20. */
typedef struct {
  uint64_t line;
  uint8_t code;
} ssh_audit_reason;

/* What an admitted login may do; all is 0 and false where it is not admitted. The texts begin with the forced command, of
   `command_length` bytes; it may be empty. Behind it are the texts of the `carried_length` options that are passed on, in the
   order of the line. They have `texts_length` bytes in all. */
typedef struct {
  bool port;
  bool agent;
  bool x11;
  bool pty;
  bool user_rc;
  bool has_command;
  size_t command_length;
  size_t carried_length;
  size_t texts_length;
} ssh_audit_rights;

/* An option that is passed on, with the length of its text: 1 environment, 2 permitlisten, 3 permitopen, 4 tunnel. */
typedef struct {
  uint8_t name;
  size_t length;
} ssh_audit_carried;

typedef struct {
  ssh_audit_decided decision;
  ssh_audit_rights rights;
} ssh_audit_login_decided;

/* By the bytes of an authorized_keys file. The reasons are written to the front of `reasons` if there is room for all of them,
   so are the options to `carried`, and the texts to `texts`; else that buffer stays as it is. A buffer may have no room. */
ssh_audit_login_decided ssh_audit_login(const uint8_t *file, size_t file_length, const ssh_audit_login_asked *asked,
                                        const ssh_audit_signed *vouched, size_t vouched_length,
                                        ssh_audit_reason *reasons, size_t reasons_length, ssh_audit_carried *carried,
                                        size_t carried_length, uint8_t *texts, size_t texts_length);

/* By the bytes of a known_hosts file. */
ssh_audit_decided ssh_audit_host(const uint8_t *file, size_t file_length, const ssh_audit_host_asked *asked,
                                 const ssh_audit_signed *vouched, size_t vouched_length, ssh_audit_reason *reasons,
                                 size_t reasons_length);

/* ---- NULL mended */

/* Bytes; NULL with the length 0 is none. */
static inline ssh_audit_bytes ssh_audit_bytes_of(const void *bytes, size_t length) {
  ssh_audit_bytes made = {bytes ? (const uint8_t *)bytes : (const uint8_t *)"", length};
  return made;
}

/* A text that ends with a NUL; NULL is an empty one. */
static inline ssh_audit_bytes ssh_audit_text(const char *text) {
  size_t length = 0;
  while (text && text[length]) length++;
  return ssh_audit_bytes_of(text, length);
}

static inline ssh_audit_file ssh_audit_file_of(const char *name, const void *bytes, size_t length) {
  ssh_audit_file made = {ssh_audit_text(name), ssh_audit_bytes_of(bytes, length)};
  return made;
}

/* `ssh_audit_run`, where a list, `input` and `out` may be NULL if they are empty. What is in the lists may not: make it by the
   functions above. */
static inline ssh_audit_answer ssh_audit_ask(const ssh_audit_bytes *words, size_t words_length,
                                             const ssh_audit_file *files, size_t files_length, const void *input,
                                             size_t input_length, void *out, size_t out_length) {
  static const ssh_audit_file no_file = {{(const uint8_t *)"", 0}, {(const uint8_t *)"", 0}};
  uint8_t no_room;
  return ssh_audit_run(words ? words : &no_file.name, words ? words_length : 0, files ? files : &no_file,
                       files ? files_length : 0, input ? (const uint8_t *)input : (const uint8_t *)"",
                       input ? input_length : 0, out ? (uint8_t *)out : &no_room, out ? out_length : 0);
}

/* `ssh_audit_login`, where `file`, `vouched` and the buffers may be NULL if they are empty. What `asked` and `vouched` hold may
   not. */
static inline ssh_audit_login_decided ssh_audit_ask_login(const void *file, size_t file_length,
                                                          const ssh_audit_login_asked *asked,
                                                          const ssh_audit_signed *vouched, size_t vouched_length,
                                                          ssh_audit_reason *reasons, size_t reasons_length,
                                                          ssh_audit_carried *carried, size_t carried_length,
                                                          void *texts, size_t texts_length) {
  static const ssh_audit_signed no_signed = {{(const uint8_t *)"", 0}, {(const uint8_t *)"", 0}, {(const uint8_t *)"", 0}};
  ssh_audit_reason no_reason;
  ssh_audit_carried no_option;
  uint8_t no_room;
  return ssh_audit_login(file ? (const uint8_t *)file : (const uint8_t *)"", file ? file_length : 0, asked,
                         vouched ? vouched : &no_signed, vouched ? vouched_length : 0, reasons ? reasons : &no_reason,
                         reasons ? reasons_length : 0, carried ? carried : &no_option, carried ? carried_length : 0,
                         texts ? (uint8_t *)texts : &no_room, texts ? texts_length : 0);
}

/* `ssh_audit_host`, in the same way. */
static inline ssh_audit_decided ssh_audit_ask_host(const void *file, size_t file_length,
                                                   const ssh_audit_host_asked *asked, const ssh_audit_signed *vouched,
                                                   size_t vouched_length, ssh_audit_reason *reasons,
                                                   size_t reasons_length) {
  static const ssh_audit_signed no_signed = {{(const uint8_t *)"", 0}, {(const uint8_t *)"", 0}, {(const uint8_t *)"", 0}};
  ssh_audit_reason no_reason;
  return ssh_audit_host(file ? (const uint8_t *)file : (const uint8_t *)"", file ? file_length : 0, asked,
                        vouched ? vouched : &no_signed, vouched ? vouched_length : 0, reasons ? reasons : &no_reason,
                        reasons ? reasons_length : 0);
}

#ifdef __cplusplus
}
#endif
#endif
