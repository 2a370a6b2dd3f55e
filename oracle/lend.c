// A host that lends the proved replay of calls longer runs than the program replay_calls has: each
// holds the largest ring, and a little more. LENT is their length; oracle/larger.sh links it.
#include <stddef.h>
#include <stdlib.h>

// A slice of Rattle's is lent as its place and its length.
void vsock_replay(unsigned char *storage, size_t storage_len, unsigned char *hdr, size_t hdr_len, unsigned char *buf, size_t buf_len,
                  unsigned char *bytes, size_t bytes_len, unsigned char *out, size_t out_len);

int main(void) {
    unsigned char *runs[5];
    for (int i = 0; i < 5; i++) {
        if (!(runs[i] = calloc(LENT, 1)))
            return 1;
    }
    vsock_replay(runs[0], LENT, runs[1], LENT, runs[2], LENT, runs[3], LENT, runs[4], LENT);
    return 0;
}
