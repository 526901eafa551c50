// The logs of a bundle in the guest: each runs in a thread, one bio for each operation.
#define _GNU_SOURCE
#include <errno.h>
#include <fcntl.h>
#include <linux/fs.h>
#include <pthread.h>
#include <stdlib.h>
#include <string.h>
#include <sys/ioctl.h>
#include <sys/mman.h>
#include <unistd.h>

#include "kernel_guest.h"

#define MOST_LOGS 64
#define LONGEST 1048576

// One operation of a log: its line, its kind (r, w, t, s, d for a write of recorded data, or p for a pause), its file
// and numbers.
struct step {
    int line, file, byte;
    char kind;
    unsigned long long from, length;
};

// A log: the files that it opens, its steps, and the text of its answers.
struct log {
    char **paths;
    int *opened, files;
    struct step *steps;
    size_t count;
    FILE *told;
    char *text;
    size_t size;
    pthread_t thread;
    int runs;
};

static struct log logs[MOST_LOGS];
static int log_count;
static struct timespec replayed;

// The moment that lies so many microseconds behind another.
struct timespec later(struct timespec from, unsigned long long micros) {
    unsigned long long nanos = from.tv_nsec + micros % 1000000 * 1000;
    from.tv_sec += micros / 1000000 + nanos / 1000000000;
    from.tv_nsec = nanos % 1000000000;
    return from;
}

// The moment at hand.
struct timespec now(void) {
    struct timespec moment;
    clock_gettime(CLOCK_MONOTONIC, &moment);
    return moment;
}

// Sleeps until a moment; one that has passed is not waited for.
void sleep_until(struct timespec moment) {
    while (clock_nanosleep(CLOCK_MONOTONIC, TIMER_ABSTIME, &moment, NULL) == EINTR) {
    }
}

// Tells the bytes of an answer, run by run.
static void tell_runs(FILE *to, const unsigned char *bytes, size_t size) {
    for (size_t at = 0, end; at < size; at = end) {
        for (end = at; end < size && bytes[end] == bytes[at]; end++) {
        }
        fprintf(to, " %zux%02x", end - at, bytes[at]);
    }
}

// Reads what a write of recorded data has, from the place that stands where other writes have their byte.
static ssize_t read_data(const struct step *step, void *bytes) {
    int file = open("/orders/data", O_RDONLY | O_CLOEXEC);
    ssize_t came = pread(file, bytes, step->length, step->byte);
    close(file);
    return came;
}

// Does one operation: how many bytes came of it, or -1. A flush and a trim give the length that is asked for.
static ssize_t operate(int file, const struct step *step, void *bytes) {
    unsigned long long range[2] = {step->from, step->length};
    switch (step->kind) {
    case 'r':
        memset(bytes, 0xee, step->length);
        return pread(file, bytes, step->length, step->from);
    case 'w':
        memset(bytes, step->byte, step->length);
        return pwrite(file, bytes, step->length, step->from);
    case 't':
        return ioctl(file, BLKDISCARD, range) < 0 ? -1 : (ssize_t)step->length;
    case 'd':
        return read_data(step, bytes) < 0 ? -1 : pwrite(file, bytes, step->length, step->from);
    default:
        return fsync(file) < 0 ? -1 : (ssize_t)step->length;
    }
}

// Does one operation and notes its line, the moment of its answer in microseconds from the replay, and the answer.
static void answer(struct log *log, const struct step *step, void *bytes) {
    ssize_t came = operate(log->opened[step->file], step, bytes);
    int wrong = errno;
    struct timespec end = now();
    long long micros = (end.tv_sec - replayed.tv_sec) * 1000000LL + (end.tv_nsec - replayed.tv_nsec) / 1000;
    fprintf(log->told, "answer %d %lld", step->line, micros);
    if (came < 0) {
        fprintf(log->told, " %s", strerrorname_np(wrong));
    } else if ((unsigned long long)came != step->length) {
        fprintf(log->told, " short %zd", came);
    } else if (step->kind == 'r') {
        tell_runs(log->told, bytes, came);
    } else {
        fprintf(log->told, " ok");
    }
    fputc('\n', log->told);
}

// A log's thread: its steps in order, each wait counted from the replay, and its files closed at its end.
static void *run_log(void *given) {
    struct log *log = given;
    unsigned long long moment = 0;
    void *bytes = mmap(NULL, LONGEST, PROT_READ | PROT_WRITE, MAP_PRIVATE | MAP_ANONYMOUS | MAP_POPULATE, -1, 0);
    for (size_t at = 0; at < log->count; at++) {
        if (log->steps[at].kind == 'p') {
            moment += log->steps[at].from;
            sleep_until(later(replayed, moment));
        } else {
            answer(log, &log->steps[at], bytes);
        }
    }
    for (int at = 0; at < log->files; at++) {
        close(log->opened[at]);
    }
    munmap(bytes, LONGEST);
    fflush(log->told);
    return NULL;
}

// Reads one order of a log.
static void read_step(struct log *log, char *text) {
    struct step step = {0};
    char path[256];
    if (sscanf(text, "file %255s", path) == 1) {
        log->paths = realloc(log->paths, (log->files + 1) * sizeof *log->paths);
        log->opened = realloc(log->opened, (log->files + 1) * sizeof *log->opened);
        log->paths[log->files++] = strdup(path);
    } else if (sscanf(text, "%c %d %d %llu %llu %d", &step.kind, &step.line, &step.file, &step.from, &step.length,
                      &step.byte) == 6) {
        log->steps = realloc(log->steps, (log->count + 1) * sizeof step);
        log->steps[log->count++] = step;
    }
}

// Reads the orders of the logs of a bundle, from files log.1, log.2 and so on.
void read_logs(void) {
    char path[64], text[512];
    for (; log_count < MOST_LOGS; log_count++) {
        snprintf(path, sizeof path, "log.%d", log_count + 1);
        FILE *file = fopen(path, "r");
        if (!file) {
            return;
        }
        while (fgets(text, sizeof text, file)) {
            read_step(&logs[log_count], text);
        }
        fclose(file);
    }
}

// Opens the files of a log; a file that can't be opened is told, and its operations then fail by EBADF.
static void open_files(struct log *log) {
    log->told = open_memstream(&log->text, &log->size);
    for (int at = 0; at < log->files; at++) {
        log->opened[at] = open(log->paths[at], O_RDWR | O_DIRECT | O_CLOEXEC);
        if (log->opened[at] < 0) {
            fprintf(log->told, "closed %s %s\n", log->paths[at], strerrorname_np(errno));
        }
    }
}

// Starts all logs at one moment.
void replay(void) {
    for (int at = 0; at < log_count; at++) {
        open_files(&logs[at]);
    }
    replayed = now();
    for (int at = 0; at < log_count; at++) {
        logs[at].runs = pthread_create(&logs[at].thread, NULL, run_log, &logs[at]) == 0;
    }
}

// Waits for all logs: whether all have ended within the limit.
int all_ended(void) {
    struct timespec end;
    clock_gettime(CLOCK_REALTIME, &end);
    end = later(end, limit * 1000ULL);
    for (int at = 0; at < log_count; at++) {
        if (logs[at].runs && pthread_timedjoin_np(logs[at].thread, NULL, &end) != 0) {
            found_waiting = 1;
            return 0;
        }
        logs[at].runs = 0;
    }
    return 1;
}

// Tells the answers of all logs; of one that waits still, those that it has.
void tell_answers(void) {
    for (int at = 0; at < log_count; at++) {
        fprintf(port, "log %d\n", at + 1);
        if (logs[at].told) {
            fflush(logs[at].told);
            fputs(logs[at].text ? logs[at].text : "", port);
        }
    }
}
