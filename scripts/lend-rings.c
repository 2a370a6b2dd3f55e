// A host in C that lends rings over 65,536 bytes, which no program here holds (docs/RULES.md, "The numbers of a connection"), to the proved
// push, and has the proved leaf make copies of more than one run. Each answer and every byte are held to a plain loop over the places.
#include <stdint.h>
#include <stdio.h>
#include <string.h>

struct ring {
    uint32_t size, head, tail;
};

// A slice of Rattle's is lent as its place and its length; what a push gives back is the answer's number.
uint8_t vsock_ring_push(struct ring ring, uint8_t *storage, size_t storage_len, const uint8_t *src, size_t src_len);
void vsock_copy(uint8_t *dst, size_t dst_len, const uint8_t *src, size_t src_len);

enum { MOST = 2097152, PACKET = 65536 };

static uint8_t bytes[MOST], expected[MOST], src[MOST];
static int wrong;

// The bytes before a call, and whether it left the expected ones.
static void before(void) {
    memset(bytes, 9, MOST);
    memset(expected, 9, MOST);
}

static const char *after(int right) {
    int same = memcmp(bytes, expected, MOST) == 0;
    wrong |= !right || !same;
    return same ? "" : ", OTHER BYTES";
}

// A push of so many bytes onto a ring that holds so many, at this head, over so much storage.
static void push(uint32_t size, uint32_t head, uint32_t held, uint32_t lent, uint32_t n, uint8_t answer) {
    before();
    for (uint32_t i = 0; answer == 0 && i < n; i++)
        expected[(head + i) % size] = src[i];
    struct ring ring = {size, head, head - held};
    uint8_t told = vsock_ring_push(ring, bytes, lent, src, n);
    const char *other = after(told == answer);
    printf("ring of %u, head %u, %u held, storage %u: a push of %u bytes: %u%s\n", size, head, held, lent, n, told, other);
}

static void copy(size_t room, size_t n) {
    before();
    for (size_t i = 0; i < room && i < n; i++)
        expected[i] = src[i];
    vsock_copy(bytes, room, src, n);
    printf("a copy of %zu bytes to %zu%s\n", n, room, after(1));
}

int main(void) {
    for (size_t i = 0; i < MOST; i++)
        src[i] = (uint8_t)(i * 7 + i / 256);
    for (uint32_t size = 131072; size <= 1048576; size *= 2) {
        push(size, size - 2, 0, size, 5, 0);                      // round the storage's end
        push(size, UINT32_MAX - 9999, 70000, size, 40000, 0);     // and where the counter wraps, with more held than a packet
        push(size, size / 2 - 1, size - PACKET, size, PACKET, 0); // to the last byte
        push(size, 3, size - 4, size, 5, 9);                      // one byte too many
        push(size, 3, 0, size, PACKET + 1, 4);                    // longer than a packet
        push(size, 3, 0, size - 1, 5, 1);                         // a storage that is too short
        copy(size, size);
    }
    push(1048575, 3, 0, 1048575, 5, 1); // sizes that no ring has
    push(1048577, 3, 0, 1048577, 5, 1);
    push(2097152, 3, 0, 2097152, 5, 1);
    copy(PACKET, PACKET + 1); // as many as both hold
    copy(1048576, 1000000);
    return wrong;
}
