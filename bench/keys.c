/* Makes the key of every frame of a capture file in each round, and prints a number that all keys go into.
 *
 *     keys FILE ROUNDS
 *
 * It is what `tool_layers keys` does, as one would write it in plain C: the same fields by the same rules,
 * with the same tests of bounds before a byte is read. bench/keys compares the numbers of both, and their times. The
 * capture file is the one that bench/keys has made, and isn't tested.
 */
#include <stdbool.h>
#include <stdint.h>
#include <stdio.h>
#include <stdlib.h>
#include <string.h>

typedef unsigned __int128 u128;

struct key {
    u128 ipv6_src, ipv6_dst;
    uint64_t metadata, dl_src, dl_dst, arp_sha, arp_tha;
    uint32_t nw_src, nw_dst, registers[16];
    uint16_t in_port, dl_type, vlan_tci, tp_src, tp_dst, vlan_tpid, vlan_tci2, vlan_tpid2;
    uint8_t nw_proto, nw_tos, nw_ttl, ip_frag;
};

enum { FIELDS = 37, WHOLE = 0, FIRST = 1, LATER = 3 };

static uint16_t be16(const uint8_t *b) { uint16_t n; memcpy(&n, b, 2); return __builtin_bswap16(n); }
static uint32_t be32(const uint8_t *b) { uint32_t n; memcpy(&n, b, 4); return __builtin_bswap32(n); }
static uint64_t be64(const uint8_t *b) { uint64_t n; memcpy(&n, b, 8); return __builtin_bswap64(n); }
static uint64_t be48(const uint8_t *b) { return (uint64_t)be16(b) << 32 | be32(b + 2); }
static u128 be128(const uint8_t *b) { return (u128)be64(b) << 64 | be64(b + 8); }

static uint8_t part(unsigned offset, unsigned more) { return offset ? LATER : more ? FIRST : WHOLE; }

/* What stands after an IP header up to the end of its packet. */
static void read_transport(struct key *key, const uint8_t *frame, size_t at, size_t end, unsigned icmp,
                           size_t icmp_size) {
    size_t size = end < at ? 0 : end - at;
    if (key->ip_frag != WHOLE)
        return;
    if ((key->nw_proto == 6 && size >= 20) || (key->nw_proto == 17 && size >= 8)) {
        key->tp_src = be16(frame + at);
        key->tp_dst = be16(frame + at + 2);
    } else if (key->nw_proto == icmp && size >= icmp_size) {
        key->tp_src = frame[at];
        key->tp_dst = frame[at + 1];
    }
}

static void read_arp(struct key *key, const uint8_t *frame, size_t len, size_t at) {
    const uint8_t *arp = frame + at;
    if (at + 28 > len || be16(arp) != 1 || be16(arp + 2) != 0x0800 || arp[4] != 6 || arp[5] != 4)
        return;
    uint16_t operation = be16(arp + 6);
    key->nw_src = be32(arp + 14);
    key->nw_dst = be32(arp + 24);
    key->nw_proto = operation < 256 ? operation : 0;
    key->arp_sha = be48(arp + 8);
    key->arp_tha = be48(arp + 18);
}

static void read_ipv4(struct key *key, const uint8_t *frame, size_t len, size_t at) {
    const uint8_t *ip = frame + at;
    if (at + 20 > len || ip[0] >> 4 != 4)
        return;
    size_t header = 4 * (ip[0] & 15), total = be16(ip + 2);
    if (header < 20 || at + header > len || header > total)
        return;
    key->nw_src = be32(ip + 12);
    key->nw_dst = be32(ip + 16);
    key->nw_proto = ip[9];
    key->nw_tos = ip[1];
    key->nw_ttl = ip[8];
    key->ip_frag = part(be16(ip + 6) & 0x1fff, be16(ip + 6) & 0x2000);
    read_transport(key, frame, at + header, at + total < len ? at + total : len, 1, 8);
}

static bool is_extension(uint8_t number) {
    return number == 0 || number == 43 || number == 44 || number == 51 || number == 60;
}

static void read_ipv6(struct key *key, const uint8_t *frame, size_t len, size_t at) {
    const uint8_t *ip = frame + at;
    if (at + 40 > len || ip[0] >> 4 != 6)
        return;
    size_t end = at + 40 + be16(ip + 4) < len ? at + 40 + be16(ip + 4) : len;
    uint8_t protocol = ip[6], fragment = WHOLE;
    at += 40;
    for (int room = 8; is_extension(protocol); room--) {
        if (room == 0 || at + 8 > end)
            return;
        size_t size = protocol == 44 ? 8 : protocol == 51 ? 4 * frame[at + 1] + 8 : 8 * frame[at + 1] + 8;
        if (at + size > end)
            return;
        uint16_t flags = be16(frame + at + 2);
        uint8_t here = protocol == 44 ? part(flags & 0xfff8, flags & 1) : WHOLE;
        if (here == LATER) {
            fragment = LATER;
            break;
        }
        if (here == FIRST)
            fragment = FIRST;
        protocol = frame[at];
        at += size;
    }
    key->ipv6_src = be128(ip + 8);
    key->ipv6_dst = be128(ip + 24);
    key->nw_proto = protocol;
    key->nw_tos = be16(ip) >> 4;
    key->nw_ttl = ip[7];
    key->ip_frag = fragment;
    read_transport(key, frame, at, end, 58, 4);
}

/* Whether a whole tag stands here, with a type behind it. */
static bool is_tag_at(const uint8_t *frame, size_t len, size_t at) {
    return at + 6 <= len && (be16(frame + at) == 0x8100 || be16(frame + at) == 0x88a8);
}

static __attribute__((noinline)) void key_of(struct key *key, uint16_t port, const uint8_t *frame, size_t len) {
    memset(key, 0, sizeof *key);
    key->in_port = port;
    if (len < 14)
        return;
    size_t at = 12;
    key->dl_dst = be48(frame);
    key->dl_src = be48(frame + 6);
    if (is_tag_at(frame, len, at)) {
        key->vlan_tpid = be16(frame + at);
        key->vlan_tci = be16(frame + at + 2) | 0x1000;
        at += 4;
        if (is_tag_at(frame, len, at)) {
            key->vlan_tpid2 = be16(frame + at);
            key->vlan_tci2 = be16(frame + at + 2) | 0x1000;
            at += 4;
        }
    }
    uint16_t type = be16(frame + at);
    at += 2;
    if (type < 0x0600) {
        if (at + 8 <= len && be48(frame + at) == 0xaaaa03000000 && be16(frame + at + 6) >= 0x0600) {
            type = be16(frame + at + 6);
            at += 8;
        } else
            type = 0x05ff;
    }
    key->dl_type = type;
    if (type == 0x0806)
        read_arp(key, frame, len, at);
    else if (type == 0x0800)
        read_ipv4(key, frame, len, at);
    else if (type == 0x86dd)
        read_ipv6(key, frame, len, at);
}

/* A field of a key, by its place there. */
static u128 get(const struct key *key, unsigned place) {
    switch (place) {
    case 0: return key->in_port;
    case 1: return key->metadata;
    case 18: return key->dl_src;
    case 19: return key->dl_dst;
    case 20: return key->dl_type;
    case 21: return key->vlan_tci;
    case 22: return key->nw_src;
    case 23: return key->nw_dst;
    case 24: return key->ipv6_src;
    case 25: return key->ipv6_dst;
    case 26: return key->nw_proto;
    case 27: return key->nw_tos;
    case 28: return key->nw_ttl;
    case 29: return key->ip_frag;
    case 30: return key->arp_sha;
    case 31: return key->arp_tha;
    case 32: return key->tp_src;
    case 33: return key->tp_dst;
    case 34: return key->vlan_tpid;
    case 35: return key->vlan_tci2;
    case 36: return key->vlan_tpid2;
    default: return key->registers[place - 2];
    }
}

struct frame {
    const uint8_t *bytes;
    size_t len;
};

/* The frames of a little-endian capture file. */
static size_t frames_of(const uint8_t *bytes, size_t size, struct frame *frames) {
    size_t count = 0;
    for (size_t at = 24; at < size; count++) {
        uint32_t len;
        memcpy(&len, bytes + at + 8, 4);
        frames[count] = (struct frame){bytes + at + 16, len};
        at += 16 + len;
    }
    return count;
}

int main(int argc, char **argv) {
    FILE *file = argc == 3 ? fopen(argv[1], "rb") : NULL;
    if (file == NULL || fseek(file, 0, SEEK_END) != 0)
        return 1;
    size_t size = ftell(file);
    uint8_t *bytes = malloc(size);
    struct frame *frames = malloc((size / 16 + 1) * sizeof *frames);
    rewind(file);
    if (bytes == NULL || frames == NULL || fread(bytes, 1, size, file) != size)
        return 1;
    size_t count = frames_of(bytes, size, frames);
    unsigned rounds = strtoul(argv[2], NULL, 10);
    u128 number = 0;
    for (unsigned round = 0; round < rounds; round++)
        for (size_t at = 0; at < count; at++) {
            struct key key;
            key_of(&key, 1, frames[at].bytes, frames[at].len);
            number = (number << 1 | number >> 127) ^ get(&key, round % FIELDS);
        }
    printf("%016llx%016llx frames=%zu rounds=%u\n", (unsigned long long)(number >> 64), (unsigned long long)number,
           count, rounds);
    return 0;
}
