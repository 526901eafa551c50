// The SHA-256 of a device in the guest, so that its bytes can be compared without being sent.
#define _GNU_SOURCE
#include <errno.h>
#include <fcntl.h>
#include <stdint.h>
#include <string.h>
#include <sys/mman.h>
#include <unistd.h>

#include "kernel_guest.h"

#define PIECE 1048576

// A sum under way: its eight words, and the words that its rounds add, which are made of the first primes' roots.
struct sum {
    uint32_t words[8], rounds[64];
};

// The first 32 bits behind the point of a prime's root, the square one or the cubic one.
static uint32_t root_bits(unsigned prime, int is_cubic) {
    unsigned __int128 low = 0, high = (unsigned __int128)32 << 32, wanted = (unsigned __int128)prime << 64;
    while (high - low > 1) {
        unsigned __int128 middle = (low + high) / 2, square = middle * middle;
        int is_less = is_cubic ? square * middle <= wanted << 32 : square <= wanted;
        *(is_less ? &low : &high) = middle;
    }
    return (uint32_t)low;
}

// Begins a sum.
static void begin(struct sum *sum) {
    for (unsigned number = 2, found = 0; found < 64; number++) {
        unsigned factor = 2;
        while (number % factor) {
            factor++;
        }
        if (factor == number) {
            sum->rounds[found] = root_bits(number, 1);
            if (found < 8) {
                sum->words[found] = root_bits(number, 0);
            }
            found++;
        }
    }
}

// A word turned right by some bits.
static uint32_t turned(uint32_t word, int bits) {
    return word >> bits | word << (32 - bits);
}

// The 64 words that a block of 64 bytes gives.
static void spread(uint32_t *words, const unsigned char *block) {
    for (int at = 0; at < 16; at++) {
        const unsigned char *four = block + 4 * at;
        words[at] = (uint32_t)four[0] << 24 | (uint32_t)four[1] << 16 | (uint32_t)four[2] << 8 | four[3];
    }
    for (int at = 16; at < 64; at++) {
        uint32_t one = words[at - 15], two = words[at - 2];
        words[at] = words[at - 16] + (turned(one, 7) ^ turned(one, 18) ^ one >> 3) + words[at - 7] +
                    (turned(two, 17) ^ turned(two, 19) ^ two >> 10);
    }
}

// Adds a block of 64 bytes to a sum.
static void add(struct sum *sum, const unsigned char *block) {
    uint32_t words[64], its[8];
    spread(words, block);
    memcpy(its, sum->words, sizeof its);
    for (int at = 0; at < 64; at++) {
        uint32_t one = its[7] + (turned(its[4], 6) ^ turned(its[4], 11) ^ turned(its[4], 25)) +
                       ((its[4] & its[5]) ^ (~its[4] & its[6])) + sum->rounds[at] + words[at];
        uint32_t two = (turned(its[0], 2) ^ turned(its[0], 13) ^ turned(its[0], 22)) +
                       ((its[0] & its[1]) ^ (its[0] & its[2]) ^ (its[1] & its[2]));
        memmove(its + 1, its, 7 * sizeof *its);
        its[4] += one;
        its[0] = one + two;
    }
    for (int at = 0; at < 8; at++) {
        sum->words[at] += its[at];
    }
}

// Adds the last block, which tells how many bytes there were.
static void end(struct sum *sum, unsigned long long bytes) {
    unsigned char block[64] = {0x80};
    for (int at = 0; at < 8; at++) {
        block[63 - at] = (unsigned char)(bytes * 8 >> 8 * at);
    }
    add(sum, block);
}

// Tells the SHA-256 of all bytes of a device.
void tell_digest(int line, const char *path) {
    static struct sum sum;
    unsigned char *bytes = mmap(NULL, PIECE, PROT_READ | PROT_WRITE, MAP_PRIVATE | MAP_ANONYMOUS, -1, 0);
    unsigned long long size = 0;
    int file = open(path, O_RDONLY | O_DIRECT | O_CLOEXEC);
    ssize_t came = 0;
    begin(&sum);
    while (file >= 0 && (came = read(file, bytes, PIECE)) > 0) {
        for (ssize_t at = 0; at < came; at += 64) {
            add(&sum, bytes + at);
        }
        size += (unsigned long long)came;
    }
    if (file < 0 || came < 0) {
        fprintf(port, "fault %s: %s\n", path, strerror(errno));
    }
    close(file);
    munmap(bytes, PIECE);
    end(&sum, size);
    fprintf(port, "digest %d ", line);
    for (int at = 0; at < 8; at++) {
        fprintf(port, "%08x", sum.words[at]);
    }
    fputc('\n', port);
}

#ifdef TRIED
FILE *port;
// Tries it on files: ./kernel_digest FILE..
int main(int count, char **words) {
    port = stdout;
    for (int at = 1; at < count; at++) {
        tell_digest(at, words[at]);
    }
    return 0;
}
#endif
