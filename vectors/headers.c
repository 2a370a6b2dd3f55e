/* Outside vectors of the packet header: C's own compiler lays out Linux's struct virtio_vsock_hdr.
 *
 * headers STDIN STDOUT writes the headers, 44 bytes each, to the first file, and to the second what
 * the program replay_headers must print of them: Linux's numbers of operations, types and flags, then
 * for each header its ten fields in decimal and its bytes in hexadecimal. */
#include <endian.h>
#include <stdint.h>
#include <stdio.h>
#include <stdlib.h>
#include <string.h>

#include <linux/virtio_vsock.h>

enum { FIELDS = 10 };

/* The widths in bits, only to know each field's largest value. */
static const int bits[FIELDS] = {64, 64, 32, 32, 32, 16, 16, 32, 32, 32};

static FILE *in, *out;

static uint64_t largest(int field) { return ~(uint64_t)0 >> (64 - bits[field]); }

static void vector(const uint64_t v[FIELDS]) {
    struct virtio_vsock_hdr h = {
        .src_cid = htole64(v[0]),
        .dst_cid = htole64(v[1]),
        .src_port = htole32(v[2]),
        .dst_port = htole32(v[3]),
        .len = htole32(v[4]),
        .type = htole16(v[5]),
        .op = htole16(v[6]),
        .flags = htole32(v[7]),
        .buf_alloc = htole32(v[8]),
        .fwd_cnt = htole32(v[9]),
    };
    const unsigned char *bytes = (const unsigned char *)&h;
    fwrite(&h, sizeof h, 1, in);
    for (int i = 0; i < FIELDS; i++)
        fprintf(out, "%llu ", (unsigned long long)v[i]);
    for (size_t i = 0; i < sizeof h; i++)
        fprintf(out, "%02x", bytes[i]);
    fputc('\n', out);
}

/* xorshift64*, from a fixed seed: the same vectors each time. */
static uint64_t state = 0x6d6168756e657469;

static uint64_t next(void) {
    state ^= state >> 12;
    state ^= state << 25;
    state ^= state >> 27;
    return state * 0x2545f4914f6cdd1d;
}

static void fill(uint64_t v[FIELDS], uint64_t with) {
    for (int i = 0; i < FIELDS; i++)
        v[i] = with & largest(i);
}

int main(int count, char **words) {
    uint64_t v[FIELDS];
    if (count != 3 || !(in = fopen(words[1], "wb")) || !(out = fopen(words[2], "wb")))
        return 1;
    if (sizeof(struct virtio_vsock_hdr) != 44)
        return 1;

    fprintf(out, "REQUEST %d\nRESPONSE %d\nRST %d\nSHUTDOWN %d\nRW %d\nCREDIT_UPDATE %d\nCREDIT_REQUEST %d\n",
            VIRTIO_VSOCK_OP_REQUEST, VIRTIO_VSOCK_OP_RESPONSE, VIRTIO_VSOCK_OP_RST, VIRTIO_VSOCK_OP_SHUTDOWN,
            VIRTIO_VSOCK_OP_RW, VIRTIO_VSOCK_OP_CREDIT_UPDATE, VIRTIO_VSOCK_OP_CREDIT_REQUEST);
    fprintf(out, "STREAM %d\nSHUTDOWN_RCV %d\nSHUTDOWN_SEND %d\n", VIRTIO_VSOCK_TYPE_STREAM,
            VIRTIO_VSOCK_SHUTDOWN_RCV, VIRTIO_VSOCK_SHUTDOWN_SEND);

    /* Each field at 0, 1, its largest value and a pattern of distinct bytes, the others all clear or all set. */
    for (int set = 0; set < 2; set++)
        for (int i = 0; i < FIELDS; i++) {
            const uint64_t edge[] = {0, 1, largest(i), 0x1122334455667788 & largest(i)};
            for (int k = 0; k < 4; k++) {
                fill(v, set ? ~(uint64_t)0 : 0);
                v[i] = edge[k];
                vector(v);
            }
        }
    /* Each byte of each field by itself. */
    for (int i = 0; i < FIELDS; i++)
        for (int byte = 0; byte < bits[i] / 8; byte++) {
            fill(v, 0);
            v[i] = (uint64_t)0xa5 << 8 * byte;
            vector(v);
        }
    /* Every byte of the header another value. */
    vector((uint64_t[]){0x0807060504030201, 0x100f0e0d0c0b0a09, 0x14131211, 0x18171615, 0x1c1b1a19, 0x1e1d, 0x201f,
                        0x24232221, 0x28272625, 0x2c2b2a29});
    /* Random fields. */
    for (int n = 0; n < 131; n++) {
        for (int i = 0; i < FIELDS; i++)
            v[i] = next() & largest(i);
        vector(v);
    }
    return fclose(in) || fclose(out);
}
