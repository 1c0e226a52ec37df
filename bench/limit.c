/* The least work that answers "which line of this trust file holds this key?", written by hand: the lower bound that
 * run.py measures the proved program against. It gives no rights, no reasons and no evidence.
 *
 *   limit login FILE BASE64 HOST ADDRESS       authorized_keys: the first line that admits the key
 *   limit authority FILE BASE64 HOST ADDRESS   the same of a certificate that the key signed: a cert-authority line
 *   limit host FILE BASE64 NAME                known_hosts: the first line of that name, and the first revocation
 *   limit auth FILE                            authorized_keys: the lines, each ended by an LF
 *   limit known FILE                           the same of known_hosts
 *   limit hash FILE SALTS                      known_hosts: a line for each plain name, hashed with the next 20 bytes
 *   limit digest FILE..                        authorized_keys: the fingerprint of each line's key, and each file's SHA-256
 *   limit logins BASE64 HOST ADDRESS FILE..    login, of each file in its turn
 *
 * It streams the file. Of each line it finds the end, skips blanks and comments, cuts options or names off, looks the
 * type up, decodes the base64, walks the fields of the key blob, and compares the blob with the key. Only where that is
 * the key, it matches the patterns of `from` (a net is none) or names, or hashes the name with the line's salt.
 * A login ends at the line that is found, a host at the end of the file.
 *
 * It prints "line N", "revoked N" or "none", and "unreadable N" where it met such lines. Status: 0 found, 1 not found,
 * 2 no such file, command or base64. Of auth and known it writes the lines as they are, each after it was looked at in
 * the same way, and nothing else; the status is 0. Of hash it writes such lines, and every other as it is; the status is
 * 2 where the salts run out. Of digest it writes "FILE:N SHA256:.." for each line with a key, looked at in the same way,
 * and "FILE HEX" at the end of a file. Of logins each line begins with "FILE: ", and the status is 0.
 */
#include <fcntl.h>
#include <stdint.h>
#include <stdio.h>
#include <string.h>
#include <strings.h>
#include <unistd.h>

#include "hmac.h"
#include "sha256.h"

enum { LINE_LIMIT = 65536, BUFFER = 4 * LINE_LIMIT };

typedef struct {
    const uint8_t *at;
    size_t len;
} Span;

/* ---- base64 (RFC 4648 section 4), in its canonical spelling alone */

static const char ALPHABET[] = "ABCDEFGHIJKLMNOPQRSTUVWXYZabcdefghijklmnopqrstuvwxyz0123456789+/";
static const uint32_t NO_DIGIT = 1u << 31;
static uint32_t digits[4][256]; /* the bits of a digit at each place of a group of four */

static void fill_digits(void) {
    for (int place = 0; place < 4; place++) {
        for (int byte = 0; byte < 256; byte++) digits[place][byte] = NO_DIGIT;
        for (uint32_t value = 0; value < 64; value++)
            digits[place][(uint8_t)ALPHABET[value]] = value << (18 - 6 * place);
    }
}

static inline uint32_t group(const uint8_t *text, int count) {
    uint32_t bits = 0;
    for (int place = 0; place < count; place++) bits |= digits[place][text[place]];
    return bits;
}

static inline uint8_t *put(uint8_t *out, uint32_t bits, int count) {
    for (int byte = 0; byte < count; byte++) *out++ = (uint8_t)(bits >> (16 - 8 * byte));
    return out;
}

/* Decodes into `out`, which has room for LINE_LIMIT bytes; how many bytes it wrote, or -1. */
static long decode(Span text, uint8_t *out) {
    if (text.len == 0 || text.len % 4 != 0 || text.len > LINE_LIMIT) return -1;
    const uint8_t *last = text.at + text.len - 4;
    uint8_t *end = out;
    uint32_t seen = 0;
    for (const uint8_t *at = text.at; at < last; at += 4) {
        uint32_t bits = group(at, 4);
        seen |= bits;
        end = put(end, bits, 3);
    }
    int padding = last[3] != '=' ? 0 : last[2] != '=' ? 1 : 2;
    uint32_t unused = (1u << (8 * padding)) - 1;
    uint32_t bits = group(last, 4 - padding);
    if ((seen | bits) & NO_DIGIT || bits & unused) return -1;
    return put(end, bits, 3 - padding) - out;
}

/* Writes the base64 of so many bytes, two more than a multiple of three, without the sign that fills it up. */
static void write_base64(const uint8_t *bytes, size_t len, FILE *out) {
    size_t whole = len - 2;
    for (size_t at = 0; at < whole; at += 3) {
        uint32_t bits = (uint32_t)bytes[at] << 16 | (uint32_t)bytes[at + 1] << 8 | bytes[at + 2];
        for (int place = 0; place < 4; place++) putc_unlocked(ALPHABET[bits >> (18 - 6 * place) & 63], out);
    }
    uint32_t bits = (uint32_t)bytes[whole] << 10 | (uint32_t)bytes[whole + 1] << 2;
    for (int place = 0; place < 3; place++) putc_unlocked(ALPHABET[bits >> (12 - 6 * place) & 63], out);
}

/* ---- key blobs (RFC 4253 section 6.6, RFC 5656, RFC 8709, PROTOCOL.u2f) */

/* The fields after the type name: m positive mpint, k 32 bytes, c name of the curve, q point, s any string. */
typedef struct {
    Span name;
    const char *fields;
    Span curve;
    size_t point;
} Type;

#define TEXT(text) {(const uint8_t *)(text), sizeof(text) - 1}

static Span text_of(const char *text) {
    return (Span){(const uint8_t *)text, strlen(text)};
}

static const Type TYPES[] = {
    {TEXT("ssh-ed25519"), "k", TEXT(""), 0},
    {TEXT("ssh-rsa"), "mm", TEXT(""), 0},
    {TEXT("ecdsa-sha2-nistp256"), "cq", TEXT("nistp256"), 65},
    {TEXT("ecdsa-sha2-nistp384"), "cq", TEXT("nistp384"), 97},
    {TEXT("ecdsa-sha2-nistp521"), "cq", TEXT("nistp521"), 133},
    {TEXT("sk-ssh-ed25519@openssh.com"), "ks", TEXT(""), 0},
    {TEXT("sk-ecdsa-sha2-nistp256@openssh.com"), "cqs", TEXT("nistp256"), 65},
};

static int same(Span a, Span b) {
    return a.len == b.len && memcmp(a.at, b.at, a.len) == 0;
}

static const Type *find_type(Span name) {
    for (size_t i = 0; i < sizeof TYPES / sizeof *TYPES; i++)
        if (same(name, TYPES[i].name)) return &TYPES[i];
    return NULL;
}

/* Takes a string of the SSH protocols: its length as a uint32, and that many bytes. */
static int take_string(Span *rest, Span *string) {
    if (rest->len < 4) return 0;
    size_t len = (size_t)rest->at[0] << 24 | (size_t)rest->at[1] << 16 | (size_t)rest->at[2] << 8 | rest->at[3];
    if (rest->len - 4 < len) return 0;
    *string = (Span){rest->at + 4, len};
    *rest = (Span){rest->at + 4 + len, rest->len - 4 - len};
    return 1;
}

static int is_positive(Span mpint) {
    if (mpint.len == 0 || mpint.at[0] & 0x80) return 0;
    return mpint.at[0] != 0 || (mpint.len > 1 && mpint.at[1] & 0x80);
}

static int is_field(Span field, char wanted, const Type *type) {
    switch (wanted) {
    case 'm': return is_positive(field);
    case 'k': return field.len == 32;
    case 'c': return same(field, type->curve);
    case 'q': return field.len == type->point && field.at[0] == 4;
    default: return 1;
    }
}

static int is_key(Span blob, const Type *type) {
    Span field;
    if (!take_string(&blob, &field) || !same(field, type->name)) return 0;
    for (const char *wanted = type->fields; *wanted; wanted++)
        if (!take_string(&blob, &field) || !is_field(field, *wanted, type)) return 0;
    return blob.len == 0;
}

/* ---- lines */

typedef struct {
    int file, at_end;
    size_t from, to;
    Sha256 *hash; /* of all that is read, if it is wanted */
    _Alignas(4096) uint8_t buffer[BUFFER]; /* from the start of a page the whole is a seventh faster */
} Lines;

/* Finds the next line, without its LF; 0 at the end. Of a line past the limit one byte too many is kept. */
static int next_line(Lines *lines, Span *line) {
    for (;;) {
        uint8_t *start = lines->buffer + lines->from;
        size_t left = lines->to - lines->from;
        uint8_t *lf = memchr(start, '\n', left);
        if (lf || (lines->at_end && left)) {
            *line = (Span){start, lf ? (size_t)(lf - start) : left};
            lines->from += line->len + (lf != NULL);
            return 1;
        }
        if (lines->at_end) return 0;
        memmove(lines->buffer, start, left);
        lines->from = 0;
        lines->to = left > LINE_LIMIT ? LINE_LIMIT + 1 : left;
        ssize_t got = read(lines->file, lines->buffer + lines->to, BUFFER - lines->to);
        if (got > 0 && lines->hash) sha256_take(lines->hash, lines->buffer + lines->to, (size_t)got);
        if (got <= 0) lines->at_end = 1;
        else lines->to += (size_t)got;
    }
}

static int is_blank(uint8_t byte) {
    return byte == ' ' || byte == '\t';
}

static void skip_blanks(Span *rest) {
    while (rest->len && is_blank(*rest->at)) rest->at++, rest->len--;
}

static Span take_word(Span *rest) {
    skip_blanks(rest);
    const uint8_t *start = rest->at, *at = start, *end = start + rest->len;
    while (at < end && !is_blank(*at)) at++;
    *rest = (Span){at, (size_t)(end - at)};
    return (Span){start, (size_t)(at - start)};
}

/* Reads "base64 comment" after a type's name and leaves the key in `blob`; its length, or -1, also without a type. */
static long read_key(const Type *type, Span rest, uint8_t *blob) {
    if (!type) return -1;
    long len = decode(take_word(&rest), blob);
    return len >= 0 && is_key((Span){blob, (size_t)len}, type) ? len : -1;
}

/* ---- patterns (ssh_config(5)); the texts are in lower case */

static uint8_t lower(uint8_t byte) {
    return byte >= 'A' && byte <= 'Z' ? byte + 'a' - 'A' : byte;
}

/* Goes back to the last star alone, so it takes at most one turn for each byte of the pattern and each of the text. */
static int matches(Span pattern, Span text) {
    size_t p = 0, t = 0, star = SIZE_MAX, held = 0;
    while (t < text.len) {
        if (p < pattern.len && pattern.at[p] == '*') star = ++p, held = t;
        else if (p < pattern.len && (pattern.at[p] == '?' || lower(pattern.at[p]) == text.at[t])) p++, t++;
        else if (star != SIZE_MAX) p = star, t = ++held;
        else return 0;
    }
    while (p < pattern.len && pattern.at[p] == '*') p++;
    return p == pattern.len;
}

/* Takes the piece up to the next comma; 0 after the last one. */
static int take_item(Span *list, Span *item) {
    if (!list->at) return 0;
    const uint8_t *comma = memchr(list->at, ',', list->len);
    *item = (Span){list->at, comma ? (size_t)(comma - list->at) : list->len};
    *list = comma ? (Span){comma + 1, list->len - item->len - 1} : (Span){NULL, 0};
    return 1;
}

static int take_negation(Span *item) {
    if (item->len == 0 || *item->at != '!') return 0;
    item->at++, item->len--;
    return 1;
}

static int permits(Span list, const Span *texts, int count) {
    int found = 0;
    for (Span item; take_item(&list, &item);) {
        int is_negated = take_negation(&item), is_match = 0;
        for (int i = 0; i < count; i++) is_match |= matches(item, texts[i]);
        if (is_match && is_negated) return 0;
        found |= is_match;
    }
    return found;
}

/* ---- what a line says to the key that is wanted */

typedef struct {
    Span key, texts[2]; /* host and address of a login, or the name of a host */
    int count, by_authority;
} Wanted;

typedef enum { PASSES, ADMITS, REVOKES, UNREADABLE } Verdict;

static uint8_t blob[LINE_LIMIT];
static long blob_len; /* of the last line that was looked at, or -1 */

static int is_wanted(long len, const Wanted *wanted) {
    return same((Span){blob, (size_t)len}, wanted->key);
}

/* ---- authorized_keys (sshd(8)) */

typedef struct {
    Span name;
    int has_value;
} OptionName;

static const OptionName OPTIONS[] = {
    {TEXT("agent-forwarding"), 0}, {TEXT("cert-authority"), 0}, {TEXT("no-agent-forwarding"), 0},
    {TEXT("no-port-forwarding"), 0}, {TEXT("no-pty"), 0}, {TEXT("no-user-rc"), 0}, {TEXT("no-X11-forwarding"), 0},
    {TEXT("port-forwarding"), 0}, {TEXT("pty"), 0}, {TEXT("no-touch-required"), 0}, {TEXT("verify-required"), 0},
    {TEXT("restrict"), 0}, {TEXT("user-rc"), 0}, {TEXT("X11-forwarding"), 0}, {TEXT("command"), 1},
    {TEXT("environment"), 1}, {TEXT("expiry-time"), 1}, {TEXT("from"), 1}, {TEXT("permitlisten"), 1},
    {TEXT("permitopen"), 1}, {TEXT("principals"), 1}, {TEXT("tunnel"), 1},
};
static const Span FROM = TEXT("from"), AUTHORITY = TEXT("cert-authority");

typedef struct {
    Span from;
    int has_from, is_authority;
} Options;

static int same_name(Span a, Span b) {
    return a.len == b.len && strncasecmp((const char *)a.at, (const char *)b.at, a.len) == 0;
}

static const OptionName *find_option(Span name) {
    for (size_t i = 0; i < sizeof OPTIONS / sizeof *OPTIONS; i++)
        if (same_name(name, OPTIONS[i].name)) return &OPTIONS[i];
    return NULL;
}

/* Takes a value in double quotes, in which \" is no end. */
static int take_value(Span *rest, Span *value) {
    if (rest->len < 2 || rest->at[0] != '=' || rest->at[1] != '"') return 0;
    const uint8_t *start = rest->at + 2, *at = start, *end = rest->at + rest->len;
    while (at < end && *at != '"') at += *at == '\\' && at + 1 < end && at[1] == '"' ? 2 : 1;
    if (at >= end) return 0;
    *value = (Span){start, (size_t)(at - start)};
    *rest = (Span){at + 1, (size_t)(end - at - 1)};
    return 1;
}

static int take_option(Span *rest, Options *options) {
    const uint8_t *at = rest->at, *end = at + rest->len;
    while (at < end && *at != '=' && *at != ',' && !is_blank(*at)) at++;
    Span name = {rest->at, (size_t)(at - rest->at)}, value;
    const OptionName *option = find_option(name);
    *rest = (Span){at, (size_t)(end - at)};
    if (!option || (option->has_value ? !take_value(rest, &value) : at < end && *at == '=')) return 0;
    if (same_name(name, AUTHORITY)) options->is_authority = 1;
    if (same_name(name, FROM)) options->has_from = 1, options->from = value;
    return 1;
}

/* Takes the options up to the blank after them. */
static int take_options(Span *line, Options *options) {
    while (take_option(line, options)) {
        if (line->len == 0 || *line->at != ',') return line->len && is_blank(*line->at);
        line->at++, line->len--;
    }
    return 0;
}

static Verdict login_line(Span line, const Wanted *wanted) {
    Options options = {0};
    Span rest = line;
    const Type *type = find_type(take_word(&rest));
    if (!type) { /* what begins with a key type has no options */
        if (!take_options(&line, &options)) return UNREADABLE;
        rest = line;
        type = find_type(take_word(&rest));
    }
    long len = blob_len = read_key(type, rest, blob);
    if (len < 0) return UNREADABLE;
    if (!is_wanted(len, wanted) || options.is_authority != wanted->by_authority) return PASSES;
    return options.has_from && !permits(options.from, wanted->texts, wanted->count) ? PASSES : ADMITS;
}

/* ---- known_hosts (sshd(8)) */

enum { SALT_TEXT = 28, HASHED = 60 }; /* |1|, a salt, |, a hash */
static const Span AUTHORITY_MARK = TEXT("@cert-authority"), REVOKED_MARK = TEXT("@revoked");

static int is_hashed(Span names) {
    return names.len && *names.at == '|';
}

static int has_empty_item(Span names) {
    for (Span item; take_item(&names, &item);) {
        take_negation(&item);
        if (item.len == 0) return 1;
    }
    return 0;
}

/* Decodes the parts of a hashed name; `digest` is overrun by none, since what is decoded has no more than 21 bytes. */
static int read_hashed(Span names, uint8_t salt[SALT + 1], uint8_t digest[DIGEST + 1]) {
    const uint8_t *at = names.at;
    if (names.len != HASHED || memcmp(at, "|1|", 3) != 0 || at[3 + SALT_TEXT] != '|') return 0;
    return decode((Span){at + 3, SALT_TEXT}, salt) == SALT && decode((Span){at + 4 + SALT_TEXT, SALT_TEXT}, digest) == DIGEST;
}

static int is_hash_of(Span name, const uint8_t *salt, const uint8_t *digest) {
    uint8_t found[DIGEST];
    hmac_sha1(salt, name.at, name.len, found);
    return memcmp(found, digest, DIGEST) == 0;
}

static Verdict revoked_line(Span line, const Wanted *wanted) {
    take_word(&line);
    take_word(&line);
    long len = decode(take_word(&line), blob);
    if (len < 0) return UNREADABLE;
    return is_wanted(len, wanted) ? REVOKES : PASSES;
}

static Verdict host_line(Span line, const Wanted *wanted) {
    uint8_t salt[SALT + 1], digest[DIGEST + 1];
    int is_marked = *line.at == '@';
    Span mark = is_marked ? take_word(&line) : (Span){NULL, 0};
    if (is_marked && same(mark, REVOKED_MARK)) return revoked_line(line, wanted);
    if (is_marked && !same(mark, AUTHORITY_MARK)) return UNREADABLE;
    Span names = take_word(&line);
    if (is_hashed(names) ? !read_hashed(names, salt, digest) : has_empty_item(names)) return UNREADABLE;
    const Type *type = find_type(take_word(&line));
    long len = read_key(type, line, blob);
    if (len < 0) return UNREADABLE;
    if (!is_wanted(len, wanted) || is_marked != wanted->by_authority) return PASSES;
    int is_named = is_hashed(names) ? is_hash_of(*wanted->texts, salt, digest) : permits(names, wanted->texts, 1);
    return is_named ? ADMITS : PASSES;
}

/* ---- the program */

typedef struct {
    const char *name;
    int words, by_authority, ends_at_found;
    Verdict (*verdict)(Span, const Wanted *);
} Command;

static const Command COMMANDS[] = {
    {"login", 6, 0, 1, login_line}, {"authority", 6, 1, 1, login_line}, {"host", 5, 0, 0, host_line},
    {"auth", 3, 0, 0, login_line}, {"known", 3, 0, 0, host_line},
};

static const Command *find_command(int words, char **argv) {
    for (size_t i = 0; i < sizeof COMMANDS / sizeof *COMMANDS; i++)
        if (COMMANDS[i].words == words && strcmp(argv[1], COMMANDS[i].name) == 0) return &COMMANDS[i];
    return NULL;
}

static Verdict verdict_of(Span line, const Command *command, const Wanted *wanted) {
    if (line.len > LINE_LIMIT) return UNREADABLE;
    if (line.len && line.at[line.len - 1] == '\r') line.len--;
    skip_blanks(&line);
    return line.len == 0 || *line.at == '#' ? PASSES : command->verdict(line, wanted);
}

/* Writes each line, after it was looked at. */
static int copy_lines(Lines *lines, const Command *command) {
    static const Wanted nothing;
    Span line;
    while (next_line(lines, &line)) {
        verdict_of(line, command, &nothing);
        fwrite(line.at, 1, line.len, stdout);
        putc_unlocked('\n', stdout);
    }
    return 0;
}

/* The names and what stands after them, of an entry whose names are plain. */
static int take_plain_names(Span line, Span *marker, Span *names, Span *rest) {
    static const Wanted nothing;
    if (line.len == 0 || *line.at == '#' || host_line(line, &nothing) == UNREADABLE) return 0;
    *rest = line;
    *marker = (Span){line.at, 0};
    if (*line.at == '@') *marker = take_word(rest);
    if (same(*marker, REVOKED_MARK)) return 0;
    *names = take_word(rest);
    skip_blanks(rest);
    for (size_t i = 0; i < names->len; i++)
        if (strchr("|*?!", names->at[i])) return 0;
    return 1;
}

static void write_hashed(Span marker, Span name, const uint8_t salt[SALT], Span rest) {
    uint8_t text[LINE_LIMIT], digest[DIGEST];
    for (size_t i = 0; i < name.len; i++) text[i] = lower(name.at[i]);
    hmac_sha1(salt, text, name.len, digest);
    if (marker.len) fwrite(marker.at, 1, marker.len, stdout), putc_unlocked(' ', stdout);
    fputs("|1|", stdout);
    write_base64(salt, SALT, stdout);
    fputs("=|", stdout);
    write_base64(digest, DIGEST, stdout);
    fputs("= ", stdout);
    fwrite(rest.at, 1, rest.len, stdout);
    putc_unlocked('\n', stdout);
}

/* Each line, or one for each of its names. */
static int hash_lines(Lines *lines, FILE *salts) {
    Span line, marker, names, rest, name;
    uint8_t salt[SALT];
    while (next_line(lines, &line)) {
        if (!take_plain_names(line, &marker, &names, &rest)) {
            fwrite(line.at, 1, line.len, stdout);
            putc_unlocked('\n', stdout);
            continue;
        }
        while (take_item(&names, &name)) {
            if (fread(salt, 1, SALT, salts) != SALT) return 2;
            write_hashed(marker, name, salt, rest);
        }
    }
    return 0;
}

/* The fingerprint of each line's key, and the file's own hash. */
static int digest_lines(Lines *lines, const char *name) {
    static const Wanted nothing;
    static const Command command = {"digest", 0, 0, 0, login_line};
    uint8_t digest[SHA256_DIGEST];
    Sha256 hash, whole;
    Span line;
    sha256_begin(&whole);
    lines->hash = &whole;
    for (unsigned long number = 1; next_line(lines, &line); number++) {
        blob_len = -1;
        verdict_of(line, &command, &nothing);
        if (blob_len < 0) continue;
        sha256_begin(&hash);
        sha256_take(&hash, blob, (size_t)blob_len);
        sha256_end(&hash, digest);
        printf("%s:%lu SHA256:", name, number);
        write_base64(digest, SHA256_DIGEST, stdout);
        putc_unlocked('\n', stdout);
    }
    sha256_end(&whole, digest);
    printf("%s ", name);
    for (int at = 0; at < SHA256_DIGEST; at++) printf("%02x", digest[at]);
    putc_unlocked('\n', stdout);
    return 0;
}

static int open_next(Lines *lines, const char *name) {
    lines->from = lines->to = 0;
    lines->at_end = 0;
    lines->file = open(name, O_RDONLY);
    return lines->file >= 0;
}

/* The same of each file, in its turn. */
static int digest_files(int count, char **names, Lines *lines) {
    fill_digits();
    for (int at = 0; at < count; at++) {
        if (!open_next(lines, names[at])) return 2;
        digest_lines(lines, names[at]);
        close(lines->file);
    }
    return 0;
}

/* The first line that admits the key, and the first revocation. */
static int find_lines(Lines *lines, const Command *command, const Wanted *wanted) {
    unsigned long number = 0, first[UNREADABLE + 1] = {0}, unreadable = 0;
    Span line;
    while (!(command->ends_at_found && first[ADMITS]) && next_line(lines, &line)) {
        number++;
        Verdict verdict = verdict_of(line, command, wanted);
        if (!first[verdict]) first[verdict] = number;
        if (verdict == UNREADABLE) unreadable++;
    }
    if (first[REVOKES]) printf("revoked %lu\n", first[REVOKES]);
    else if (first[ADMITS]) printf("line %lu\n", first[ADMITS]);
    else printf("none\n");
    if (unreadable) printf("unreadable %lu\n", unreadable);
    return first[REVOKES] || !first[ADMITS];
}

/* A login by each file, in its turn. */
static int find_in_files(int argc, char **argv, uint8_t *key, Lines *lines) {
    fill_digits();
    long len = decode(text_of(argv[2]), key);
    if (len < 0) return 2;
    const Wanted wanted = {{key, (size_t)len}, {text_of(argv[3]), text_of(argv[4])}, 2, 0};
    for (int at = 5; at < argc; at++) {
        if (!open_next(lines, argv[at])) return 2;
        printf("%s: ", argv[at]);
        find_lines(lines, COMMANDS, &wanted);
        close(lines->file);
    }
    return 0;
}

int main(int argc, char **argv) {
    static Lines lines;
    static uint8_t key[LINE_LIMIT];
    if (argc > 2 && strcmp(argv[1], "digest") == 0) return digest_files(argc - 2, argv + 2, &lines);
    if (argc > 5 && strcmp(argv[1], "logins") == 0) return find_in_files(argc, argv, key, &lines);
    const Command *command = argc < 2 ? NULL : find_command(argc, argv);
    int hashes = argc == 4 && strcmp(argv[1], "hash") == 0;
    if (!command && !hashes) return 2;
    fill_digits();
    lines.file = open(argv[2], O_RDONLY);
    FILE *salts = hashes ? fopen(argv[3], "rb") : NULL;
    if (hashes) return lines.file < 0 || !salts ? 2 : hash_lines(&lines, salts);
    if (lines.file >= 0 && argc == 3) return copy_lines(&lines, command);
    long len = argc == 3 ? -1 : decode(text_of(argv[3]), key);
    if (lines.file < 0 || len < 0) return 2;
    Wanted wanted = {{key, (size_t)len}, {{NULL, 0}}, argc - 4, command->by_authority};
    for (int i = 0; i < wanted.count; i++) wanted.texts[i] = text_of(argv[4 + i]);
    return find_lines(&lines, command, &wanted);
}
