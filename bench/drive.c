/* drive check: both give the same answers on the same inputs, good and bad ones; the first difference ends it with 1.
   drive rattle|plain WORK N REPS: does one work REPS times, for counting. */
#include "bench.h"
#include <stdio.h>
#include <stdlib.h>
#include <string.h>

/* Never two calls whose order C leaves open: every compiler draws the same numbers. */
static uint64_t seed = 1;
static uint32_t chance(uint32_t below)
{
    seed = seed * 6364136223846793005u + 1442695040888963407u;
    return (seed >> 33) % below;
}

static void random_bytes(uint8_t *p, size_t n) { while (n--) *p++ = chance(256); }
static void put_le16(uint8_t *p, uint16_t v) { p[0] = v, p[1] = v >> 8; }

/* A good frame of len bytes to the address 12345678. */
static void make_frame(uint8_t *p, size_t len)
{
    static const uint8_t address[4] = {0x12, 0x34, 0x56, 0x78};
    random_bytes(p, len);
    memcpy(p, address, 4);
    p[4] = 1 + chance(255);
    p[5] = len;
    put_le16(p + len - 2, plain_checksum(p, len - 2));
}

static void make_rtu(uint8_t *p, size_t n)
{
    random_bytes(p, n - 2);
    put_le16(p + n - 2, plain_checksum(p, n - 2));
}

/* A frame round the part that stands after its header. */
static void close_part(uint8_t *p, uint16_t session, uint32_t offset, uint16_t flags, size_t size)
{
    put_le16(p, session), put_le16(p + 2, offset), put_le16(p + 4, offset >> 16), put_le16(p + 6, size), put_le16(p + 8, 0), put_le16(p + 10, flags);
    put_le16(p + 8, plain_checksum_from(0, p, 12 + size));
}

static void make_part(uint8_t *p, uint16_t session, uint32_t offset, uint16_t flags, size_t size)
{
    random_bytes(p + 12, size);
    close_part(p, session, offset, flags, size);
}

static void put_le64(uint8_t *p, uint64_t v) { for (int i = 0; i < 8; i++) p[i] = v >> 8 * i; }

/* The CRC-32 of a datagram of n bytes, made right. */
static void seal(uint8_t *p, size_t n)
{
    uint32_t crc = plain_crc32_from(0, p, n - 12);
    put_le16(p + n - 4, crc), put_le16(p + n - 2, crc >> 16);
}

/* A datagram of n bytes with so many of options. */
static void make_datagram(uint8_t *p, size_t options, size_t n)
{
    random_bytes(p, n);
    p[1] = 0, put_le16(p + 2, options), put_le16(p + 4, options >> 16);
    put_le64(p + n - 12, n - 18 - options);
    seal(p, n);
}

static struct fields make_fields(void)
{
    struct fields c = {0};
    c.address = 1 + chance(99999999);
    c.channel = 1 + chance(32);
    c.year = chance(100);
    c.month = 1 + chance(12);
    c.day = 1 + chance(28);
    c.hour = chance(24);
    c.minute = chance(60);
    c.second = chance(60);
    c.kind = chance(4);
    for (int i = 0; i < (c.kind & 1 ? 8 : 4); i++) c.bits = c.bits << 8 | chance(256);
    return c;
}

static struct date make_date(void)
{
    struct fields c = make_fields();
    struct date d = {c.year, c.month, c.day, c.hour, c.minute, c.second};
    return d;
}

enum { ADD = 1, REMOVE, MARK, CLEAR, TURN, PUT, PUT_DUE, LAST, CALLS = 512 };

/* One call of a course on a table of turns. */
static uint8_t *put_call(uint8_t *p, uint8_t call, uint8_t slot, uint8_t upper, uint8_t lower)
{
    p[0] = call, p[1] = slot, p[2] = upper, p[3] = lower;
    return p + 4;
}

/* What makes an address end in that byte. */
static uint8_t lower_for(uint8_t upper, uint8_t ending) { return ending - upper * 396825u; }

/* Calls with few addresses, so that some are present, and most slots near or in their range. A spoilt course also changes the table by itself. In the end
   every meter is marked and asked, and so told. */
static void make_course(uint8_t *p)
{
    uint8_t *end = p + 4 * CALLS;
    bool filling = chance(4), spoilt = !chance(3);
    while (p < end - 4 * 96) {
        uint8_t call = chance(2) ? MARK + chance(3) : chance(6) ? (filling ? ADD : REMOVE) : (filling ? REMOVE : ADD);
        uint8_t slot = chance(9) ? chance(34) : chance(256), upper = chance(9) ? chance(12) : 250 + chance(4), lower = upper > 250 ? 97 + chance(6) : chance(6);
        if (chance(2)) lower = lower_for(upper, lower);
        if (spoilt && !chance(40)) call = PUT + chance(3), slot = chance(34);
        p = put_call(p, call, slot, upper, lower);
    }
    for (int i = 0; i < 32; i++) p = put_call(p, TURN, 0, 0, 0);
    for (int i = 0; i < 32; i++) p = put_call(p, MARK, 1 + i, 0, 0);
    for (int i = 0; i < 32; i++) p = put_call(p, TURN, 0, 0, 0);
}

/* A table of meters whose addresses are one block, are random, or end alike, by the work's name; then n times what is counted. */
static void make_work(uint8_t *p, const char *work, size_t n)
{
    bool block = !strncmp(work, "block", 5), alike = !strncmp(work, "alike", 5);
    const char *what = strchr(work, '-') + 1;
    bool all = !strcmp(what, "due"), one = !strcmp(what, "one"), add = !strcmp(what, "add");
    uint8_t upper = 0, lower = 0;
    memset(p, 0, 4 * CALLS);
    for (int i = 0; i < 32; i++) {
        upper = block ? 100 : 3 + 7 * i, lower = block ? 100u + i : alike ? lower_for(upper, 77) : chance(256);
        if (i < 31 || !add) p = put_call(p, ADD, 0, upper, lower);
        if (all || (one && i == 16)) p = put_call(p, MARK, 1 + i, 0, 0);
    }
    if (one) p = put_call(put_call(p, TURN, 0, 0, 0), MARK, 17, 0, 0);
    for (size_t i = 0; i < 192; i++) {
        bool made = i < n;
        p = put_call(p, made ? (add ? ADD : TURN) : 0, 0, upper, lower);
        if (all || one) p = put_call(p, made ? MARK : 0, one ? 17 : 1 + i % 32, 0, 0);
        if (add) p = put_call(p, made ? REMOVE : 0, 32, 0, 0);
    }
}

static void damage(uint8_t *p, size_t n)
{
    size_t at = chance(n);
    p[at] ^= 1 << chance(8);
}

static void put_be16(uint8_t *p, uint16_t v) { p[0] = v >> 8, p[1] = v; }

/* A group that may be asked for, now and then at the ends of what may be. */
static struct ask make_ask(void)
{
    struct ask a = {1, 9999, 1};
    if (chance(9)) a.file = 1 + chance(65535);
    if (chance(9)) a.record = chance(10000);
    if (chance(9)) a.length = 1 + chance(65535);
    return a;
}

/* One of its numbers just in or just out of what may be. */
static struct ask edge_ask(struct ask a)
{
    switch (chance(3)) {
    case 0: a.file = chance(2); break;
    case 1: a.record = 9999 + chance(2); break;
    default: a.length = chance(2);
    }
    return a;
}

/* Requests and replies of ADI with any groups, more than there may be too; answers how many bytes. */
static size_t put_asks(uint8_t *p, const struct ask *groups, size_t n)
{
    p[0] = 0x14, p[1] = 7 * n;
    for (size_t i = 0; i < n; i++) {
        uint8_t *g = p + 2 + 7 * i;
        g[0] = 6, put_be16(g + 1, groups[i].file), put_be16(g + 3, groups[i].record), put_be16(g + 5, groups[i].length);
    }
    return 7 * n + 2;
}

static size_t put_groups(uint8_t *p, const uint8_t *lengths, size_t n)
{
    size_t at = 2;
    for (size_t i = 0; i < n; i++) {
        p[at] = lengths[i], p[at + 1] = 6;
        random_bytes(p + at + 2, lengths[i]);
        at += lengths[i] + 2;
    }
    p[0] = 0x14, p[1] = at - 2;
    return at;
}

/* Good lengths of so many groups of a reply, or of as many as have room in it; answers how many, and in n how many register bytes they have. */
static size_t make_lengths(uint8_t *lengths, size_t groups, size_t largest, size_t *n)
{
    size_t i = 0;
    for (*n = 0; i < groups; i++) {
        size_t length = 2 + 2 * chance(largest / 2);
        if (*n + length + 2 * i + 2 > 245) break;
        lengths[i] = length, *n += length;
    }
    return i;
}

/* The length byte of some group of a good reply. */
static size_t some_group(const uint8_t *p, size_t n)
{
    size_t at = 2;
    while (chance(9) && at + p[at] + 2 < n) at += p[at] + 2;
    return at;
}

/* A byte changed, some at the end cut off, or some put there; most often the byte count is then made right. Answers how many bytes there are. */
static size_t spoil(uint8_t *p, size_t n)
{
    size_t at = chance(n), more = 1 + chance(chance(9) ? 9 : 50);
    switch (chance(5)) {
    case 0: n = at; break;
    case 1: random_bytes(p + n, more), n += more; break;
    case 2: p[at] = chance(8); break;
    case 3: p[at]++; break;
    default: damage(p, n);
    }
    if (chance(4)) p[1] = n - 2;
    return n;
}

static void make_descriptor(uint8_t *p, size_t n)
{
    random_bytes(p, n);
    put_be16(p + 2, 1), put_be16(p + 8, chance(4));
}

/* The kinds of a reading: the bytes and the bits of a value that a summary takes, and the largest such, of floats in 1/1024ths. */
static const struct { const char *name; int bytes, bits; uint64_t top; } kinds[4] = {
    {"read_f32", 4, 24, 0xFFFFFF}, {"read_f64", 8, 50, 0x3FFFFFFFFFFFF},
    {"read_u32", 4, 32, 0xFFFFFFFE}, {"read_u64", 8, 64, 0xFFFFFFFFFFFFFFFE}};

/* A number of so many bits. */
static uint64_t number(int bits)
{
    uint64_t v = chance(0x80000000);
    v = v << 31 | chance(0x80000000);
    v = v << 31 | chance(0x80000000);
    return bits ? v >> (64 - bits) : 0;
}

static void put_bits(uint8_t *p, int bytes, uint64_t bits) { for (int i = 0; i < bytes; i++) p[i] = bits >> 8 * i; }

/* So many units of the kind: whole ones, or parts of 1. */
static void put_units(uint8_t *p, int kind, uint64_t units, unsigned parts)
{
    float f = (float)units / parts;
    double d = (double)units / parts;
    uint32_t bits;
    if (kind == 0) memcpy(&bits, &f, 4), units = bits;
    if (kind == 1) memcpy(&units, &d, 8);
    put_bits(p, kinds[kind].bytes, units);
}

/* The body of an archive reply with so many values, of which one in `absent` is absent, or none where that is 0; the others rise from `start`, each time by a
   number of so many bits or, where that goes past the largest, by nothing or up to it. Answers how many bytes. */
static size_t make_archive(uint8_t *p, int kind, size_t values, uint32_t absent, uint64_t start, int bits)
{
    struct date d = make_date();
    uint64_t units = start, top = kinds[kind].top;
    if (units > top) units = top;
    put_bits(p, 4, (uint64_t)1 << chance(32));
    memcpy(p + 4, &d, 6);
    p += 10;
    for (size_t i = 0; i < values; i++, p += kinds[kind].bytes) {
        if (absent && !chance(absent)) { put_bits(p, kinds[kind].bytes, -1); continue; }
        uint64_t more = number(bits);
        units += more <= top - units ? more : chance(2) ? top - units : 0;
        put_units(p, kind, units, 1024);
    }
    return 10 + values * kinds[kind].bytes;
}

/* Some value made another: one at an edge of what a float may be, one that fits, one with half a digit, any, absent, the next one with it in the next one's
   place, or the same with a bit changed. */
static void spoil_value(uint8_t *p, int kind, size_t values)
{
    static const uint64_t edges[2][24] = {
        {0, 1, 0x7FFFFF, 0x800000, 0x3A000000, 0x3A7FFFFF, 0x3A800000, 0x3A800001, 0x3AC00000, 0x3B000000, 0x467FFFFE, 0x467FFFFF, 0x46800000, 0x46800001,
         0x7F7FFFFF, 0x7F800000, 0x7F800001, 0x7FC00000, 0x7FFFFFFF, 0x80000000, 0xBF800000, 0xFF800000, 0xFFC00000, 0xFFFFFFFE},
        {0, 1, 0xFFFFFFFFFFFFF, 0x10000000000000, 0x3F40000000000000, 0x3F4FFFFFFFFFFFFF, 0x3F50000000000000, 0x3F50000000000001, 0x3F58000000000000,
         0x3F60000000000000, 0x426FFFFFFFFFFFF8, 0x426FFFFFFFFFFFFC, 0x4270000000000000, 0x4270000000000001, 0x7FEFFFFFFFFFFFFF, 0x7FF0000000000000,
         0x7FF0000000000001, 0x7FF8000000000000, 0x7FFFFFFFFFFFFFFF, 0x8000000000000000, 0xBFF0000000000000, 0xFFF0000000000000, 0xFFF8000000000000,
         0xFFFFFFFFFFFFFFFE}};
    if (values == 0) return;
    int bytes = kinds[kind].bytes, bits = chance(kinds[kind].bits + 1);
    size_t at = chance(values);
    uint8_t held[8];
    p += 10 + bytes * at;
    switch (chance(7)) {
    case 0: put_bits(p, bytes, edges[bytes == 8][chance(24)]); break;
    case 1: put_units(p, kind, number(bits), 1024); break;
    case 2: put_units(p, kind, number(bits) | 1, 2048); break;
    case 3: random_bytes(p, bytes); break;
    case 4: put_bits(p, bytes, -1); break;
    case 5: if (at + 1 < values) memcpy(held, p, bytes), memcpy(p, p + bytes, bytes), memcpy(p + bytes, held, bytes); break;
    default: damage(p, bytes);
    }
}

/* No mask of one bit, perhaps, or no date, or a date at an edge. */
static void spoil_head(uint8_t *p)
{
    static const uint8_t highest[6] = {99, 12, 31, 23, 59, 59};
    size_t at = chance(6);
    switch (chance(5)) {
    case 0: damage(p, 4); break;
    case 1: random_bytes(p, 4); break;
    case 2: memset(p + 4, 0xFF, 6); break;
    case 3: damage(p + 4, 6); break;
    default: p[4 + at] = chance(2) ? highest[at] + chance(2) : at == 2 ? 28 + chance(3) : 0;
    }
}

static void differ(const char *what)
{
    fprintf(stderr, "%s: Rattle and C answer differently\n", what);
    exit(1);
}

static void same_frame(struct frame a, struct frame b, const char *what, unsigned *good)
{
    if (a.refused != b.refused || a.function != b.function || a.id != b.id || a.address != b.address || a.bytes != b.bytes) differ(what);
    *good += !a.refused;
}

/* At the meter, and at the master that asked the same address, or any, for some function under some ID, most often those of the frame. */
static void check_frame(uint32_t own, const uint8_t *p, size_t n, unsigned *good)
{
    same_frame(rattle_read_at_meter(own, p, n), plain_read_at_meter(own, p, n), "read_at_meter", good);
    uint32_t asked = chance(9) ? own : 0;
    uint8_t function = chance(9) ? p[4] : chance(256);
    uint16_t id = chance(9) && p[5] >= 10 ? p[p[5] - 4] | p[p[5] - 3] << 8 : chance(65536);
    same_frame(rattle_read_at_master(asked, function, id, p, n), plain_read_at_master(asked, function, id, p, n), "read_at_master", good);
}

static void check_rtu(const uint8_t *p, size_t n, unsigned *good)
{
    struct rtu a = rattle_read_rtu(p, n), b = plain_read_rtu(p, n);
    if (a.refused != b.refused || a.address != b.address || a.function != b.function) differ("read_rtu");
    *good += !a.refused;
}

static void check_ascii(const uint8_t *p, size_t n, size_t room, unsigned *good)
{
    uint8_t one[300], other[300];
    memset(one, 0x5A, sizeof one), memset(other, 0x5A, sizeof other);
    struct ascii a = rattle_read_ascii(p, n, one, room), b = plain_read_ascii(p, n, other, room);
    if (a.refused != b.refused || a.address != b.address || a.function != b.function || a.length != b.length || memcmp(one, other, sizeof one)) differ("read_ascii");
    *good += !a.refused;
}

static void check_write_ascii(const uint8_t *data, size_t n, size_t room, unsigned *good)
{
    uint8_t one[600], other[600], address = chance(256), function = chance(256);
    memset(one, 0x5A, sizeof one), memset(other, 0x5A, sizeof other);
    uint8_t a = rattle_write_ascii(address, function, data, n, one, room), b = plain_write_ascii(address, function, data, n, other, room);
    if (a != b || memcmp(one, other, sizeof one)) differ("write_ascii");
    *good += !a;
}

/* With the file's first bytes in the buffer. */
static void check_receive(uint16_t session, size_t limit, bool under_way, size_t count, const uint8_t *file, const uint8_t *p, size_t n, size_t room, unsigned *good, unsigned *whole)
{
    uint8_t one[1000], other[1000];
    memcpy(one, file, sizeof one), memcpy(other, file, sizeof other);
    struct step a = rattle_receive(session, limit, under_way, count, p, n, one, room), b = plain_receive(session, limit, under_way, count, p, n, other, room);
    if (a.refused != b.refused || a.complete != b.complete || a.under_way != b.under_way || a.session != b.session || a.limit != b.limit
        || a.reached != b.reached || a.count != b.count || memcmp(one, other, sizeof one)) differ("receive");
    *good += !a.refused;
    *whole += a.complete;
}

/* Also as if it came in two stretches, and as what it may be. */
static void check_datagram(const uint8_t *p, size_t n, unsigned *good, unsigned *files)
{
    size_t cut = chance(n + 1);
    if (rattle_datagram_fault(p, cut, p + cut, n - cut) != plain_datagram_fault(p, cut, p + cut, n - cut)) differ("datagram_fault");
    struct datagram a = rattle_read_datagram(p, n), b = plain_read_datagram(p, n);
    if (a.refused != b.refused || a.kind != b.kind || a.option != b.option || a.content != b.content || a.options != b.options || a.data != b.data) differ("read_datagram");
    struct request c = rattle_read_request(p, n), d = plain_read_request(p, n);
    if (c.refused != d.refused || c.letter != d.letter || c.offset != d.offset || c.size != d.size || c.name != d.name) differ("read_request");
    struct reply e = rattle_read_reply(p, n), f = plain_read_reply(p, n);
    if (e.refused != f.refused || e.letter != f.letter || e.status != f.status || e.message != f.message) differ("read_reply");
    *good += !a.refused;
    *files += !c.refused + !e.refused;
}

static void check_write_datagram(const uint8_t *options, size_t o, const uint8_t *data, size_t n, unsigned *good)
{
    uint8_t one[1000], other[1000], kind = chance(256);
    uint64_t offset = chance(0x7FFFFFFF), size = offset * offset;
    size_t room = o + n + 17 + chance(9);
    memset(one, 0x5A, sizeof one), memset(other, 0x5A, sizeof other);
    uint8_t a = rattle_write_datagram(kind, options, o, data, n, one, room), b = plain_write_datagram(kind, options, o, data, n, other, room);
    if (a != b || memcmp(one, other, sizeof one)) differ("write_datagram");
    *good += !a;
    a = rattle_write_request(offset, size, options, o, one, room + 19 - n), b = plain_write_request(offset, size, options, o, other, room + 19 - n);
    if (a != b || memcmp(one, other, sizeof one)) differ("write_request");
    *good += !a;
    a = rattle_write_reply(size, options, o, data, n, one, room + 7), b = plain_write_reply(size, options, o, data, n, other, room + 7);
    if (a != b || memcmp(one, other, sizeof one)) differ("write_reply");
    *good += !a;
}

static void check_send(const uint8_t *file, size_t n, size_t largest, size_t place, size_t room, unsigned *good)
{
    uint8_t one[300], other[300];
    uint16_t session = chance(65536);
    memset(one, 0x5A, sizeof one), memset(other, 0x5A, sizeof other);
    struct sent a = rattle_send(file, n, session, largest, place, one, room), b = plain_send(file, n, session, largest, place, other, room);
    if (a.refused != b.refused || a.length != b.length || a.next != b.next || memcmp(one, other, sizeof one)) differ("send");
    *good += !a.refused;
}

struct pdus { unsigned asked, replied, empty, described, found; };

/* Any bytes, as a request of ADI, as a reply and as a descriptor; and what stands at places of them that are near 0, near the last, and anywhere. */
static void check_pdu(const uint8_t *p, size_t n, struct pdus *good)
{
    struct counted a = rattle_adi_read_request(p, n), b = plain_adi_read_request(p, n);
    if (a.refused != b.refused || a.n != b.n) differ("adi_request::read_request");
    struct groups c = rattle_adi_read_reply(p, n), d = plain_adi_read_reply(p, n);
    if (c.refused != d.refused || c.no_data != d.no_data || c.count != d.count || c.length != d.length || c.n != d.n) differ("adi_reply::read_reply");
    struct descriptor e = rattle_adi_read_descriptor(p, n), f = plain_adi_read_descriptor(p, n);
    if (e.refused != f.refused || e.contents != f.contents || e.length != f.length || e.kind != f.kind || e.records != f.records
        || e.record_length != f.record_length || e.next != f.next || e.total != f.total) differ("adi::read_descriptor");
    good->asked += !a.refused, good->replied += !c.refused && !c.no_data, good->empty += c.no_data, good->described += !e.refused;
    for (int i = 0; i < 4; i++) {
        size_t place = i == 0 ? chance(4) : i == 1 ? a.n + c.n + chance(2) : i == 2 ? chance(70) : (size_t)-1 / (1 + chance(9));
        struct asked g = rattle_adi_asked_at(p, n, place), h = plain_adi_asked_at(p, n, place);
        if (g.there != h.there || g.file != h.file || g.record != h.record || g.length != h.length) differ("adi_request::asked_at");
        struct registers j = rattle_adi_registers_at(p, n, place), k = plain_adi_registers_at(p, n, place);
        if (j.first != k.first || j.length != k.length) differ("adi_reply::registers_at");
        good->found += g.there + (j.length > 0);
    }
}

static void check_write_asks(const struct ask *groups, size_t n, size_t room, unsigned *good)
{
    uint8_t one[300], other[300];
    memset(one, 0x5A, sizeof one), memset(other, 0x5A, sizeof other);
    struct counted a = rattle_adi_write_request(groups, n, one, room), b = plain_adi_write_request(groups, n, other, room);
    if (a.refused != b.refused || a.n != b.n || memcmp(one, other, sizeof one)) differ("adi_request::write_request");
    *good += !a.refused;
}

static void check_write_groups(const uint8_t *lengths, size_t groups, const uint8_t *registers, size_t n, size_t room, unsigned *good)
{
    uint8_t one[300], other[300];
    memset(one, 0x5A, sizeof one), memset(other, 0x5A, sizeof other);
    struct counted a = rattle_adi_write_reply(lengths, groups, registers, n, one, room), b = plain_adi_write_reply(lengths, groups, registers, n, other, room);
    if (a.refused != b.refused || a.n != b.n || memcmp(one, other, sizeof one)) differ("adi_reply::write_reply");
    *good += !a.refused;
}

static void check_write_no_data(uint8_t count, uint8_t length, size_t room, unsigned *good)
{
    uint8_t one[9], other[9];
    memset(one, 0x5A, sizeof one), memset(other, 0x5A, sizeof other);
    struct counted a = rattle_adi_write_no_data(count, length, one, room), b = plain_adi_write_no_data(count, length, other, room);
    if (a.refused != b.refused || a.n != b.n || memcmp(one, other, sizeof one)) differ("adi_reply::write_no_data");
    *good += !a.refused;
}

static bool same_fields(struct fields a, struct fields b)
{
    return a.refused == b.refused && a.channel == b.channel && a.year == b.year && a.month == b.month && a.day == b.day && a.hour == b.hour
        && a.minute == b.minute && a.second == b.second && a.kind == b.kind && a.address == b.address && a.bits == b.bits;
}

/* As a card of either form, and moved to the other. */
static void check_read_card(const uint8_t *p, size_t n, unsigned *good, unsigned *moved)
{
    uint8_t one[40], other[40];
    size_t room = 16 + chance(10);
    struct fields a = rattle_read_card(p, n), b = plain_read_card(p, n);
    if (!same_fields(a, b)) differ("read_card");
    struct archive_fields c = rattle_read_archive_card(p, n), d = plain_read_archive_card(p, n);
    if (!same_fields(c.card, d.card) || c.archive != d.archive) differ("read_archive_card");
    *good += !a.refused + !c.card.refused;
    memset(one, 0x5A, sizeof one), memset(other, 0x5A, sizeof other);
    uint8_t e = rattle_to_archive_card(p, n, one, room), f = plain_to_archive_card(p, n, other, room);
    if (e != f || memcmp(one, other, sizeof one)) differ("to_archive_card");
    *moved += !e;
    e = rattle_to_card(p, n, one, room), f = plain_to_card(p, n, other, room);
    if (e != f || memcmp(one, other, sizeof one)) differ("to_card");
    *moved += !e;
}

/* In both forms, the new one most often with a good archive kind. */
static void check_write_card(struct fields c, size_t room, unsigned *good)
{
    uint8_t one[40], other[40], archive = chance(9) ? chance(6) : chance(256);
    memset(one, 0x5A, sizeof one), memset(other, 0x5A, sizeof other);
    uint8_t a = rattle_write_card(c, one, room), b = plain_write_card(c, other, room);
    if (a != b || memcmp(one, other, sizeof one)) differ("write_card");
    *good += !a;
    a = rattle_write_archive_card(c, archive, one, room), b = plain_write_archive_card(c, archive, other, room);
    if (a != b || memcmp(one, other, sizeof one)) differ("write_archive_card");
    *good += !a;
}

static void check_clock(struct date meter, struct date cabinet, unsigned *good)
{
    struct difference a = rattle_clock_difference(meter, cabinet), b = plain_clock_difference(meter, cabinet);
    if (a.refused != b.refused || a.seconds != b.seconds) differ("clock_difference");
    *good += !a.refused;
}

static void check_course(const uint8_t *calls, unsigned *good)
{
    struct told a = rattle_course(calls, 4 * CALLS), b = plain_course(calls, 4 * CALLS);
    if (a.sum != b.sum || a.good != b.good) differ("turns");
    *good += a.good;
}

/* A summary of each kind, floats by their bits; answers how many values are present, and the refusal. */
#define SAME(field) !memcmp(&a.field, &b.field, sizeof a.field)
#define CHECK_SUMMARY(kind, number) \
    static size_t check_##kind(const uint8_t *p, size_t n, size_t k, uint8_t *refused) \
    { \
        struct summed_##kind a = rattle_summary_##kind(p, n, k), b = plain_summary_##kind(p, n, k); \
        if (!(SAME(refused) && SAME(place) && SAME(first) && SAME(first_place) && SAME(last) && SAME(last_place) && SAME(present) && SAME(step))) differ(kinds[number].name); \
        *refused = a.refused; \
        return a.present; \
    }
CHECK_SUMMARY(f32, 0)
CHECK_SUMMARY(f64, 1)
CHECK_SUMMARY(u32, 2)
CHECK_SUMMARY(u64, 3)

/* At an index that runs from 0 to 59, past the end of each kind, and at the last step or the one after it; `all`: at each of these, and far past the end. */
static void check_summary(int kind, const uint8_t *p, size_t n, bool all, unsigned *answers)
{
    static size_t (*const check_kind[4])(const uint8_t *, size_t, size_t, uint8_t *) = {check_f32, check_f64, check_u32, check_u64};
    static size_t next;
    uint8_t refused;
    size_t present = check_kind[kind](p, n, next++ % 60, &refused);
    check_kind[kind](p, n, (present < 2 ? 0 : present - 2) + chance(2), &refused);
    for (size_t k = 0; all && k < 60; k++) check_kind[kind](p, n, k, &refused);
    if (all) check_kind[kind](p, n, (size_t)-1 / (1 + chance(9)), &refused);
    answers[refused]++;
}

static int check(void)
{
    static uint8_t p[10000], file[1000];
    unsigned frames = 0, lines = 0, texts = 0, made = 0, received = 0, whole = 0, datagrams = 0, files = 0, put = 0, sent = 0, clocks = 0, read = 0, moved = 0, written = 0, called = 0;
    for (size_t n = 0; n < 600; n++) {
        random_bytes(p, n);
        if (rattle_checksum(p, n) != plain_checksum(p, n)) differ("checksum");
        size_t cut = chance(n + 1);
        uint16_t start = chance(65536);
        if (rattle_checksum_from(rattle_checksum_from(start, p, cut), p + cut, n - cut) != plain_checksum_from(start, p, n)) differ("checksum_from");
        if (rattle_crc32_from(rattle_crc32_from(start, p, cut), p + cut, n - cut) != plain_crc32_from(start, p, n)) differ("crc32_from");
    }
    for (int i = 0; i < 20000; i++) {
        size_t len = 10 + chance(246), more = chance(3), size = 1 + chance(240);
        uint32_t own = chance(100000001);
        make_frame(p, len);
        check_frame(12345678, p, len + more, &frames);
        damage(p, len);
        check_frame(12345678, p, len, &frames);
        check_frame(own, p, chance(20), &frames);

        size_t line = 4 + chance(254);
        make_rtu(p, line);
        check_rtu(p, line, &lines);
        damage(p, line);
        check_rtu(p, line, &lines);
        check_rtu(p, chance(5), &lines);

        size_t bytes = chance(254);
        random_bytes(p, bytes);
        check_write_ascii(p, bytes, 2 * bytes + 8 + chance(3), &made);
        plain_write_ascii(chance(256), 3, p, bytes, p + 300, 600);
        check_ascii(p + 300, 9 + 2 * bytes, bytes + chance(3) - !!bytes, &texts);
        damage(p + 300, 9 + 2 * bytes);
        check_ascii(p + 300, 9 + 2 * bytes, 252, &texts);
        check_ascii(p + 300, chance(12), 252, &texts);

        uint16_t flags = chance(9) ? 2 * chance(4) : chance(16);
        size_t count = 1 + chance(400), offset = chance(2) ? count : chance(500);
        if (flags & 2 && chance(4)) offset = 0;
        bool under_way = chance(9), held = chance(9);
        size_t room = 300 + chance(700);
        /* The file that it ends, which is in the buffer; its lengths may only seem to agree, where their sum wraps. */
        size_t all = offset + size < 18 ? 18 : offset + size, options = chance(all - 17);
        if (!chance(9)) options += chance(all);
        make_datagram(file, options, all);
        if (!chance(9)) file[1] = chance(3), seal(file, all);
        memcpy(p + 12, file + offset, size);
        if (!chance(9)) damage(p + 12, size);
        close_part(p, 7, offset, flags, size);
        uint16_t session = chance(9) ? 7 : 8;
        check_receive(session, chance(9) ? 200 + chance(42) : size - chance(2), under_way, held ? count : 0, file, p, 12 + size, room, &received, &whole);
        damage(p, 12 + size);
        check_receive(7, 240, true, count, file, p, 12 + size - chance(2), 1000, &received, &whole);

        size_t place = chance(all + 9), largest = 1 + chance(240), little = chance(20), text = chance(99), data = chance(500);
        check_datagram(file, all, &datagrams, &files);
        check_send(file, all, largest, place, 300, &sent);
        check_send(file, little, largest, place, 300, &sent);
        check_send(file, all, chance(2) * 241, place, 300, &sent);
        check_send(file, all, 240, place, 12 + chance(240), &sent);
        check_write_datagram(p, text, p + 99, data, &put);
        bool request = chance(2);
        if (request) plain_write_request(offset, size, p, text, file, all = text + 37);
        else plain_write_reply(size, p, text, p + 99, data, file, all = text + data + 25);
        check_datagram(file, all, &datagrams, &files);
        damage(file, chance(2) ? all : 40);
        check_datagram(file, all, &datagrams, &files);
        check_send(file, all, largest, place, 300, &sent);
        seal(file, all);
        check_datagram(file, all, &datagrams, &files);
        check_datagram(file, little, &datagrams, &files);

        struct date meter = make_date(), cabinet;
        cabinet = make_date();
        check_clock(meter, cabinet, &clocks);
        damage((uint8_t *)&meter, sizeof meter);
        check_clock(meter, cabinet, &clocks);
        damage((uint8_t *)&cabinet, sizeof cabinet);
        check_clock(meter, cabinet, &clocks);

        struct fields c = make_fields();
        check_write_card(c, 16 + chance(10), &written);
        plain_write_card(c, p, 17);
        check_read_card(p, 17, &read, &moved);
        damage(p, 17);
        check_read_card(p, 17 - !chance(9), &read, &moved);
        plain_write_archive_card(c, chance(2) ? 0 : chance(5), p, 18);
        check_read_card(p, 18, &read, &moved);
        for (int k = chance(3); k >= 0; k--) damage(p, 18);
        check_read_card(p, 18 + !chance(9), &read, &moved);
        random_bytes((uint8_t *)&c, sizeof c);
        c.refused = 0, c.kind &= 3;
        check_write_card(c, 17 + chance(2), &written);
        c = make_fields();
        switch (chance(8)) {
        case 0: c.address = chance(2) ? 0 : 99999999 + chance(2); break;
        case 1: c.channel = chance(2) ? 0 : 32 + chance(2); break;
        case 2: c.year = 99 + chance(2); break;
        case 3: c.month = chance(2) ? 0 : 12 + chance(2); break;
        case 4: c.day = chance(2) ? 28 + chance(5) : 0; break;
        case 5: c.hour = 23 + chance(2); break;
        case 6: c.minute = 59 + chance(2); break;
        default: c.second = 59 + chance(2);
        }
        check_write_card(c, 17 + chance(2), &written);
    }
    for (int i = 0; i < 2000; i++) {
        make_course(p);
        check_course(p, &called);
    }
    fprintf(stderr, "the same answers: 600 checksums and CRC-32s, as many in two stretches, 60,000 frames at the meter and at the master (%u accepted), 60,000 RTU lines (%u), 60,000 ASCII lines (%u) and 20,000 written (%u), 40,000 parts (%u, %u of them the last), 100,000 datagrams (%u, %u of them for a file) and 60,000 written (%u), 100,000 parts sent (%u), 60,000 clocks (%u), 80,000 cards read in both forms (%u) and moved both ways (%u), 60,000 written in both (%u), 1,024,000 calls on a table of turns (%u)\n",
            frames, lines, texts, made, received, whole, datagrams, files, put, sent, clocks, read, moved, written, called);
    if (frames < 35000 || lines < 19000 || texts < 10000 || made < 10000 || received < 1000 || whole < 1000 || datagrams < 40000 || files < 20000 || put < 20000 || sent < 20000 || clocks < 20000 || read < 40000 || moved < 30000 || written < 30000 || called < 300000) {
        fprintf(stderr, "too few inputs are accepted\n");
        return 1;
    }
    return 0;
}

/* What ADI meters are asked for and answer. By itself, as is adi_work, so that what is counted in main stays as it is. */
__attribute__((noinline)) static int check_adi(void)
{
    static uint8_t p[1000], q[1000], lengths[300], registers[300];
    struct ask groups[40];
    struct pdus pdus = {0};
    unsigned asks = 0, brought = 0, empty = 0;
    for (int i = 0; i < 50000; i++) {
        /* a good request; one of its groups at an edge, then another or the same once more; its bytes spoilt; any number of groups */
        size_t n = 1 + chance(35), bytes, at;
        for (size_t k = 0; k < 40; k++) groups[k] = make_ask();
        for (int k = 0; k < 3; k++) {
            check_write_asks(groups, n, 7 * n + 1 + chance(3), &asks);
            bytes = put_asks(p, groups, n);
            check_pdu(p, bytes, &pdus);
            at = chance(n);
            groups[at] = edge_ask(groups[at]);
        }
        at = chance(n);
        p[2 + 7 * at] = 5 + chance(3);
        check_pdu(p, bytes, &pdus);
        bytes = spoil(p, bytes);
        check_pdu(p, bytes, &pdus);
        for (size_t k = 0; k < 40; k++) groups[k] = make_ask();
        n = chance(3) ? 34 + chance(4) : chance(41);
        check_write_asks(groups, n, chance(2) ? 300 : chance(300), &asks);
        bytes = put_asks(p, groups, n);
        check_pdu(p, bytes, &pdus);

        /* a good reply, of many small groups, of some, or of one of any length; a length or a type of it off by little; its bytes spoilt */
        size_t kind = chance(3), most = kind == 0 ? 70 : kind == 1 ? 8 : 1, all;
        n = make_lengths(lengths, 1 + chance(most), kind == 0 ? 6 : kind == 1 ? 60 : 242, &bytes);
        random_bytes(registers, sizeof registers);
        check_write_groups(lengths, n, registers, bytes, bytes + 2 * n + 1 + chance(3), &brought);
        all = put_groups(p, lengths, n);
        check_pdu(p, all, &pdus);
        for (int k = 0; k < 2; k++) {
            memcpy(q, p, all);
            at = some_group(q, all);
            if (k) q[at] = chance(3);
            else if (chance(2)) q[at] += 1 + chance(2);
            else q[at + 1] += 1 + chance(2);
            check_pdu(q, all, &pdus);
        }
        at = spoil(q, all);
        check_pdu(q, at, &pdus);
        at = spoil(p, all);
        check_pdu(p, at, &pdus);
        /* lengths that are 0, odd or too many, and most often add up */
        for (int k = 0; k < 3; k++) {
            if (k == 1) n = 59 + chance(5), bytes = 2 * n, memset(lengths, 2, sizeof lengths);
            if (k == 2) n = 1 + chance(140), bytes = 0, memset(lengths, 0, sizeof lengths);
            at = chance(n);
            bytes -= lengths[at];
            lengths[at] = chance(6);
            bytes += lengths[at];
            size_t room = chance(2) ? 300 : chance(9);
            check_write_groups(lengths, n, registers, chance(4) ? bytes : bytes + chance(3), room, &brought);
            all = put_groups(p, lengths, n);
            check_pdu(p, all, &pdus);
        }

        /* no data, and other short ones */
        uint8_t count = chance(256), length = chance(256);
        check_write_no_data(count, length, 3 + chance(3), &empty);
        plain_adi_write_no_data(count, length, p, 4);
        check_pdu(p, 4, &pdus);
        n = spoil(p, 4);
        check_pdu(p, n, &pdus);
        random_bytes(p, 20);
        n = chance(20);
        if (chance(4)) p[0] = 0x14, p[1] = n - 2;
        check_pdu(p, n, &pdus);

        make_descriptor(p, 20);
        check_pdu(p, 15 + chance(6), &pdus);
        damage(p, 16);
        check_pdu(p, 16, &pdus);
        make_descriptor(p, 20);
        at = chance(2) ? 2 : 8;
        put_be16(p + at, chance(6));
        check_pdu(p, 16, &pdus);
    }
    fprintf(stderr, "and of ADI meters: 1,000,000 PDUs as requests (%u accepted), as replies (%u, and %u without data) and as descriptors (%u), 4,000,000 places of either (%u found), 200,000 requests written (%u), 200,000 replies (%u), 50,000 without data (%u)\n",
            pdus.asked, pdus.replied, pdus.empty, pdus.described, pdus.found, asks, brought, empty);
    if (pdus.asked < 100000 || pdus.replied < 80000 || pdus.empty < 50000 || pdus.described < 80000 || pdus.found < 1000000 || asks < 50000 || brought < 30000 || empty < 30000) {
        fprintf(stderr, "too few inputs are accepted\n");
        return 1;
    }
    return 0;
}

/* 250,000 archives of each kind, each at two indices and 5,000 of them at 61 more: 805,000 answers of each kind. By itself, too. */
__attribute__((noinline)) static int check_summaries(void)
{
    static uint8_t p[1000], q[1000];
    unsigned answers[4][256] = {{0}};
    bool few = false;
    for (int kind = 0; kind < 4; kind++)
        for (int i = 0; i < 50000; i++) {
            /* a good one, whose values may be absent; one to three of them spoilt, then more; the head of either spoilt; any length */
            bool all = i % 50 == 0;
            int bytes = kinds[kind].bytes, bits = kinds[kind].bits, rise = chance(2) ? (uint32_t)bits - 6 : chance(bits + 1);
            size_t most = 235 / bytes, values = chance(3) ? chance(most + 1) : most;
            uint32_t absent = chance(3) ? 0 : 1 + chance(9);
            uint64_t start = number(chance(bits + 1));
            size_t n = make_archive(p, kind, values, absent, start, rise);
            check_summary(kind, p, n, all, answers[kind]);
            memcpy(q, p, n);
            for (int k = 0; k < 2; k++) {
                for (int left = chance(3); left >= 0; left--) spoil_value(q, kind, values);
                check_summary(kind, q, n, all, answers[kind]);
            }
            if (chance(2)) memcpy(q, p, n);
            spoil_head(q);
            check_summary(kind, q, n, all, answers[kind]);
            make_archive(p, kind, 60, absent, start, rise);
            n = chance(2) ? 236 + chance(20) : chance(3) ? 10 + bytes * chance(5) : chance(300);
            check_summary(kind, p, n, all, answers[kind]);
        }
    fprintf(stderr, "and of archives: 250,000 of each kind, each at two steps and 5,000 at all:");
    for (int kind = 0; kind < 4; kind++) {
        unsigned *a = answers[kind];
        fprintf(stderr, " %s %u accepted, 11 %u, 12 %u, 13 %u, 71 %u, 72 %u, 73 %u%s", kinds[kind].name, a[0], a[11], a[12], a[13], a[71], a[72], a[73], kind < 3 ? ";" : "\n");
        few |= a[0] < 60000 || a[11] < 20000 || a[12] < 10000 || a[13] < 10000 || a[71] < 2000 || a[72] < 10000 || (kind < 2 && a[73] < 10000);
    }
    if (few) fprintf(stderr, "too few inputs of some answer\n");
    return few;
}

#define BOTH(name, ...) (us ? rattle_##name(__VA_ARGS__) : plain_##name(__VA_ARGS__))

/* Works on PDUs of ADI: n is how many groups there are, how many bytes, or which place. */
__attribute__((noinline)) static uint64_t adi_work(bool us, const char *work, size_t n, size_t reps)
{
    static uint8_t p[300], buffer[300], lengths[61];
    struct ask asks[35];
    size_t all = 0;
    uint64_t sum = 0;
    for (int i = 0; i < 35; i++) asks[i] = make_ask();
    memset(lengths, 2, sizeof lengths);
    if (!strcmp(work, "request")) {
        all = put_asks(p, asks, n);
        while (reps--) sum += BOTH(adi_read_request, p, all).n;
    } else if (!strcmp(work, "refused")) {
        asks[n - 1].length = 0;
        all = put_asks(p, asks, n);
        while (reps--) sum += BOTH(adi_read_request, p, all).refused;
    } else if (!strcmp(work, "asked")) {
        all = put_asks(p, asks, 35);
        while (reps--) sum += BOTH(adi_asked_at, p, all, n).record;
    } else if (!strcmp(work, "ask")) {
        while (reps--) sum += BOTH(adi_write_request, asks, n, buffer, sizeof buffer).n + buffer[5];
    } else if (!strcmp(work, "record")) {
        lengths[0] = n;
        all = put_groups(p, lengths, 1);
        while (reps--) sum += BOTH(adi_read_reply, p, all).n;
    } else if (!strcmp(work, "records")) {
        all = put_groups(p, lengths, n);
        while (reps--) sum += BOTH(adi_read_reply, p, all).n;
    } else if (!strcmp(work, "empty")) {
        plain_adi_write_no_data(2, 0, p, n);
        while (reps--) sum += BOTH(adi_read_reply, p, n).count;
    } else if (!strcmp(work, "registers")) {
        all = put_groups(p, lengths, 61);
        while (reps--) sum += BOTH(adi_registers_at, p, all, n).length;
    } else if (!strcmp(work, "bring")) {
        lengths[0] = n;
        random_bytes(p, n);
        while (reps--) sum += BOTH(adi_write_reply, lengths, 1, p, n, buffer, sizeof buffer).n + buffer[5];
    } else if (!strcmp(work, "brings")) {
        random_bytes(p, 2 * n);
        while (reps--) sum += BOTH(adi_write_reply, lengths, n, p, 2 * n, buffer, sizeof buffer).n + buffer[5];
    } else {
        make_descriptor(p, n);
        while (reps--) sum += BOTH(adi_read_descriptor, p, n).total;
    }
    return sum;
}

/* Summaries of archives with n values, all of them present. */
__attribute__((noinline)) static uint64_t summary_work(bool us, const char *work, size_t n, size_t reps)
{
    static uint8_t p[300];
    int kind = (work[0] == 'u') * 2 + (work[1] == '6');
    size_t all = make_archive(p, kind, n, 0, 1000000, 11);
    uint64_t sum = 0;
    switch (kind) {
    case 0: while (reps--) sum += BOTH(summary_f32, p, all, n - 2).present; break;
    case 1: while (reps--) sum += BOTH(summary_f64, p, all, n - 2).present; break;
    case 2: while (reps--) sum += BOTH(summary_u32, p, all, n - 2).present; break;
    default: while (reps--) sum += BOTH(summary_u64, p, all, n - 2).present;
    }
    return sum;
}

int main(int argc, char **argv)
{
    static uint8_t p[17 * 400 + 10000], buffer[1000];
    static struct fields cards[400];
    static struct date dates[401];
    uint64_t sum = 0;
    if (argc == 2) return check() || check_adi() || check_summaries();
    bool us = argv[1][0] == 'r';
    const char *work = argv[2];
    size_t n = atol(argv[3]), reps = atol(argv[4]);
    if (!strcmp(work, "cards")) { /* cards for the lister, on standard output */
        for (size_t i = 0; i < n; i++) {
            plain_write_card(make_fields(), p, 17);
            fwrite(p, 17, 1, stdout);
        }
        return 0;
    }
    if (!strcmp(work, "cards18")) { /* and of the new form */
        for (size_t i = 0; i < n; i++) {
            plain_write_archive_card(make_fields(), i % 5, p, 18);
            fwrite(p, 18, 1, stdout);
        }
        return 0;
    }
    if (!strncmp(work, "adi-", 4)) {
        sum = adi_work(us, work + 4, n, reps);
    } else if (!strncmp(work, "summary-", 8)) {
        sum = summary_work(us, work + 8, n, reps);
    } else if (!strcmp(work, "checksum")) {
        random_bytes(p, n);
        while (reps--) sum += BOTH(checksum, p, n);
    } else if (!strcmp(work, "stretches")) {
        random_bytes(p, n);
        while (reps--) {
            uint16_t c = BOTH(checksum, p, n / 2);
            sum += BOTH(checksum_from, c, p + n / 2, n - n / 2);
        }
    } else if (!strcmp(work, "crc32")) {
        random_bytes(p, n);
        while (reps--) sum += BOTH(crc32_from, 0, p, n);
    } else if (!strcmp(work, "frame")) {
        make_frame(p, n);
        while (reps--) sum += BOTH(read_at_meter, 12345678, p, n).bytes;
    } else if (!strcmp(work, "reply")) {
        make_frame(p, n);
        while (reps--) sum += BOTH(read_at_master, 12345678, p[4], p[n - 4] | p[n - 3] << 8, p, n).bytes;
    } else if (!strcmp(work, "begun")) {
        make_frame(p, n);
        while (reps--) sum += BOTH(read_at_meter, 12345678, p, n - 1).bytes;
    } else if (!strcmp(work, "rtu")) {
        make_rtu(p, n);
        while (reps--) sum += BOTH(read_rtu, p, n).function;
    } else if (!strcmp(work, "ascii")) {
        random_bytes(buffer, (n - 9) / 2);
        plain_write_ascii(1, 3, buffer, (n - 9) / 2, p, n);
        while (reps--) sum += BOTH(read_ascii, p, n, buffer, sizeof buffer).length;
    } else if (!strcmp(work, "line")) {
        random_bytes(p, (n - 9) / 2);
        while (reps--) sum += BOTH(write_ascii, 1, 3, p, (n - 9) / 2, buffer, n) + buffer[5];
    } else if (!strcmp(work, "receive")) {
        make_part(p, 7, 240, 0, n);
        while (reps--) sum += BOTH(receive, 7, 240, true, 240, p, 12 + n, buffer, sizeof buffer).count;
    } else if (!strcmp(work, "last")) { /* the last frame of a file, or its only one */
        size_t held = n > 240 ? 240 : 0;
        make_datagram(buffer, 9, n);
        memcpy(p + 12, buffer + held, n - held);
        close_part(p, 7, held, held ? 4 : 6, n - held);
        while (reps--) sum += BOTH(receive, 7, 240, held != 0, held, p, 12 + n - held, buffer, sizeof buffer).reached;
    } else if (!strcmp(work, "halves")) {
        make_datagram(p, 9, n);
        while (reps--) sum += !BOTH(datagram_fault, p, n / 2, p + n / 2, n - n / 2);
    } else if (!strcmp(work, "datagram")) {
        make_datagram(p, 9, n);
        while (reps--) sum += BOTH(read_datagram, p, n).data;
    } else if (!strcmp(work, "envelope")) {
        random_bytes(p, n);
        while (reps--) sum += BOTH(write_datagram, 0x87, p, 9, p + 9, n - 27, buffer, n) + buffer[n - 1];
    } else if (!strcmp(work, "request")) {
        random_bytes(p, n);
        plain_write_request(0, -1, p, n - 37, buffer, n);
        while (reps--) sum += BOTH(read_request, buffer, n).name;
    } else if (!strcmp(work, "ask")) {
        random_bytes(p, n);
        while (reps--) sum += BOTH(write_request, 0, -1, p, n - 37, buffer, n) + buffer[n - 1];
    } else if (!strcmp(work, "answer")) {
        random_bytes(p, n);
        plain_write_reply(0, (const uint8_t *)"OK", 2, p, n - 27, buffer, n);
        while (reps--) sum += BOTH(read_reply, buffer, n).message;
    } else if (!strcmp(work, "bring")) {
        random_bytes(p, n);
        while (reps--) sum += BOTH(write_reply, 0, (const uint8_t *)"OK", 2, p, n - 27, buffer, n) + buffer[n - 1];
    } else if (!strcmp(work, "send")) {
        make_datagram(p, 9, n);
        while (reps--) sum += BOTH(send, p, n, 7, 240, 0, buffer, sizeof buffer).next + buffer[8];
    } else if (!strcmp(work, "clock")) {
        for (int i = 0; i < 401; i++) dates[i] = make_date();
        for (size_t r = 0; r < reps; r++)
            for (size_t i = 0; i < n; i++) sum += BOTH(clock_difference, dates[i], dates[i + 1]).seconds;
    } else if (strchr(work, '-')) {
        make_work(p, work, n);
        while (reps--) sum += BOTH(course, p, 4 * CALLS).sum;
    } else if (!strcmp(work, "read18")) {
        for (int i = 0; i < 400; i++) plain_write_archive_card(make_fields(), i % 5, p + 18 * i, 18);
        for (size_t r = 0; r < reps; r++)
            for (size_t i = 0; i < n; i++) sum += BOTH(read_archive_card, p + 18 * i, 18).card.bits;
    } else if (!strcmp(work, "write18")) {
        for (int i = 0; i < 400; i++) cards[i] = make_fields();
        for (size_t r = 0; r < reps; r++)
            for (size_t i = 0; i < n; i++) sum += BOTH(write_archive_card, cards[i], 1, buffer, 18) + buffer[3];
    } else if (!strcmp(work, "to18")) {
        for (int i = 0; i < 400; i++) plain_write_card(make_fields(), p + 17 * i, 17);
        for (size_t r = 0; r < reps; r++)
            for (size_t i = 0; i < n; i++) sum += BOTH(to_archive_card, p + 17 * i, 17, buffer, 18) + buffer[3];
    } else if (!strcmp(work, "to17")) {
        for (int i = 0; i < 400; i++) plain_write_archive_card(make_fields(), 0, p + 18 * i, 18);
        for (size_t r = 0; r < reps; r++)
            for (size_t i = 0; i < n; i++) sum += BOTH(to_card, p + 18 * i, 18, buffer, 17) + buffer[3];
    } else {
        for (int i = 0; i < 400; i++) {
            cards[i] = make_fields();
            plain_write_card(cards[i], p + 17 * i, 17);
        }
        bool read = !strcmp(work, "read");
        for (size_t r = 0; r < reps; r++)
            for (size_t i = 0; i < n; i++)
                if (read) sum += BOTH(read_card, p + 17 * i, 17).bits;
                else sum += BOTH(write_card, cards[i], buffer, 17) + buffer[3];
    }
    printf("%llu\n", (unsigned long long)sum);
    return 0;
}
