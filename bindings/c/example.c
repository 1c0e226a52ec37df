/* Logins by the typed call and by the words of the program, and a review: example [ROUNDS], which also times them. */
#define _POSIX_C_SOURCE 199309L
#include "ssh_audit.h"

#include <stdio.h>
#include <stdlib.h>
#include <string.h>
#include <time.h>

#define KEY "AAAAC3NzaC1lZDI1NTE5AAAAIAAAAAAAAAAAAAAAAAAAAAAAAAAAAAAAAAAAAAAAAAAA"
#define OTHER "AAAAC3NzaC1lZDI1NTE5AAAAIAAAAAAAAAAAAAAAAAAAAAAAAAAAAAAAAAAAAAAAAAAB"
#define BLOB "0000000b7373682d6564323535313900000020" "0000000000000000000000000000000000000000000000000000000000000000"
#define MESSAGE                                                                                                        \
  "00000004010203043200000003616e6e0000000e7373682d636f6e6e656374696f6e000000097075626c69636b6579010000000b"           \
  "7373682d6564323535313900000033" BLOB
#define SIGNATURE "0000000b7373682d6564323535313900000001aa"

/* The bytes that hexadecimal digits spell, in memory that is the caller's to free. */
static ssh_audit_bytes unhex(const char *digits) {
  size_t length = strlen(digits) / 2;
  uint8_t *bytes = malloc(length);
  if (!bytes) exit(2);
  for (size_t i = 0; i < length; i++) {
    unsigned value;
    if (sscanf(digits + 2 * i, "%2x", &value) != 1) exit(2);
    bytes[i] = (uint8_t)value;
  }
  return ssh_audit_bytes_of(bytes, length);
}

static ssh_audit_answer ask(const char *const *words, const ssh_audit_file *files, size_t count, uint8_t *out,
                            size_t size) {
  ssh_audit_bytes list[64];
  size_t length = 0;
  for (; words[length]; length++) list[length] = ssh_audit_text(words[length]);
  return ssh_audit_ask(list, length, files, count, NULL, 0, out, size);
}

/* A login by a line with options: why lines before it were passed over, what the login may do, and the texts for whoever starts
   the session. A buffer that is too short stays as it is, and the lengths say how much room is wanted. */
static void restricted(const ssh_audit_login_asked *asked, const ssh_audit_signed *vouched) {
  const char *keys = "from=\"10.0.0.0/8\" ssh-ed25519 " KEY "\n"
                     "restrict,pty,command=\"backup\",permitopen=\"db:5432\" ssh-ed25519 " KEY "\n";
  ssh_audit_reason reasons[100];
  ssh_audit_carried carried[8];
  char texts[256];
  ssh_audit_login_decided told =
      ssh_audit_ask_login(keys, strlen(keys), asked, vouched, 1, reasons, 100, carried, 8, texts, sizeof texts);
  if (told.rights.carried_length > 8 || told.rights.texts_length > sizeof texts) exit(2);
  printf("line %llu, pty %d, port %d, command %.*s\n", (unsigned long long)told.decision.number, told.rights.pty,
         told.rights.port, (int)told.rights.command_length, texts);
  for (size_t i = 0; i < told.decision.reasons_length; i++)
    printf("not line %llu: G%u\n", (unsigned long long)reasons[i].line, reasons[i].code);
  size_t from = told.rights.command_length;
  for (size_t i = 0; i < told.rights.carried_length; from += carried[i++].length)
    printf("option %u: %.*s\n", carried[i].name, (int)carried[i].length, texts + from);
}

static double seconds(void) {
  struct timespec now;
  clock_gettime(CLOCK_MONOTONIC, &now);
  return (double)now.tv_sec + (double)now.tv_nsec / 1e9;
}

int main(int argc, char **argv) {
  static uint8_t out[1 << 16];
  long rounds = argc > 1 ? atol(argv[1]) : 0;
  char keys[2048] = "";
  for (int i = 0; i < 9; i++) strcat(keys, "ssh-ed25519 " OTHER " other\n");
  strcat(keys, "ssh-ed25519 " KEY " me\n");
  ssh_audit_file files[] = {ssh_audit_file_of("keys", keys, strlen(keys)),
                            ssh_audit_file_of("vouched", BLOB " " MESSAGE " " SIGNATURE "\n", strlen(BLOB MESSAGE SIGNATURE) + 3)};
  ssh_audit_signed vouched = {unhex(BLOB), unhex(MESSAGE), unhex(SIGNATURE)};
  ssh_audit_login_asked asked = {.offered = vouched.key,
                                 .signature = vouched.signature,
                                 .algorithm = ssh_audit_text("ssh-ed25519"),
                                 .session = unhex("01020304"),
                                 .user = ssh_audit_text("ann"),
                                 .address = ssh_audit_text("192.0.2.1"),
                                 .host = ssh_audit_text(NULL),
                                 .now = 150};
  ssh_audit_login_decided told = ssh_audit_ask_login(keys, strlen(keys), &asked, &vouched, 1, NULL, 0, NULL, 0, NULL, 0);
  ssh_audit_decided granted = told.decision;
  ssh_audit_decided denied =
      ssh_audit_ask_login(keys, strlen(keys), &asked, NULL, 0, NULL, 0, NULL, 0, NULL, 0).decision;
  printf("kind %u line %llu, kind %u code N%u\n", granted.kind, (unsigned long long)granted.number, denied.kind, denied.code);
  restricted(&asked, &vouched);
  const char *login[] = {"login", "--file", "keys", "--offer", KEY, "--signature", SIGNATURE, "--algorithm",
                         "ssh-ed25519", "--session", "01020304", "--user", "ann", "--address", "192.0.2.1", "--now",
                         "150", "--vouch", "vouched", NULL};
  const char *review[] = {"review", "--kind", "auth", "--now", "150", "keys", NULL};
  const char *const *questions[] = {login, review};
  for (int i = 0; i < 2; i++) {
    ssh_audit_answer answer = ask(questions[i], files, 2, out, sizeof out);
    if (answer.length > sizeof out) return 2;
    printf("status %u\n%.*s", answer.status, (int)answer.length, (const char *)out);
  }
  double from = seconds();
  for (long n = 0; n < rounds; n++)
    ssh_audit_ask_login(keys, strlen(keys), &asked, &vouched, 1, NULL, 0, NULL, 0, NULL, 0);
  if (rounds) printf("typed login: %.2f us a call\n", (seconds() - from) * 1e6 / (double)rounds);
  for (int i = 0; i < 2 && rounds; i++) {
    from = seconds();
    for (long n = 0; n < rounds; n++) ask(questions[i], files, 2, out, sizeof out);
    printf("%s: %.2f us a call\n", questions[i][0], (seconds() - from) * 1e6 / (double)rounds);
  }
  free((void *)asked.session.bytes);
  free((void *)vouched.key.bytes);
  free((void *)vouched.message.bytes);
  free((void *)vouched.signature.bytes);
  return !(granted.kind == 0 && granted.number == 10 && denied.kind == 1 && denied.code == 6);
}
