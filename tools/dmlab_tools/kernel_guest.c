// The first program of the Linux that tools/against_kernel boots: it runs the orders of each bundle by dmsetup and by
// one bio for each operation of a log, and tells on the second serial line what came of them. kernel_orders.py
// says what the orders look like, and kernel_answers.py what the answers do.
#define _GNU_SOURCE
#include <dirent.h>
#include <errno.h>
#include <fcntl.h>
#include <poll.h>
#include <signal.h>
#include <stdarg.h>
#include <stdio.h>
#include <stdlib.h>
#include <string.h>
#include <sys/mount.h>
#include <sys/reboot.h>
#include <sys/resource.h>
#include <sys/stat.h>
#include <sys/syscall.h>
#include <sys/utsname.h>
#include <sys/wait.h>
#include <termios.h>
#include <unistd.h>

#include "kernel_guest.h"

// How long a command or the logs' end is waited for, in milliseconds, where no order `limit` says otherwise.
#define LIMIT 10000
#define MOST_WORDS 64
FILE *port;
int limit = LIMIT;
char found_waiting;
static int kernel_words, mapped;

// Opens the second serial line for text that isn't changed on its way.
static void open_port(void) {
    int line = open("/dev/ttyS1", O_RDWR | O_NOCTTY);
    struct termios raw;
    tcgetattr(line, &raw);
    cfmakeraw(&raw);
    cfsetspeed(&raw, B115200);
    tcsetattr(line, TCSANOW, &raw);
    port = fdopen(line, "w");
}

// Tells a text line by line, each behind a word.
static void tell_lines(const char *word, char *text) {
    for (char *line = strtok(text, "\n"); line; line = strtok(NULL, "\n")) {
        fprintf(port, "%s %s\n", word, line);
    }
}

// Tells what a file has.
static void tell_file(const char *word, const char *path) {
    static char text[262144];
    int file = open(path, O_RDONLY);
    ssize_t size = read(file, text, sizeof text - 1);
    close(file);
    text[size < 0 ? 0 : size] = 0;
    tell_lines(word, text);
}

// Tells what device-mapper has told the kernel's log since the last time, each line behind a word.
static void tell_kernel_words(const char *word) {
    char record[8192];
    ssize_t size;
    while ((size = read(kernel_words, record, sizeof record - 1)) > 0 || (size < 0 && errno == EPIPE)) {
        record[size < 0 ? 0 : size] = 0;
        char *text = strchr(record, ';');
        if (text && strstr(text, "device-mapper: ")) {
            *strchrnul(text, '\n') = 0;
            fprintf(port, "%s %s\n", word, strstr(text, "device-mapper: ") + 15);
        }
    }
}

// Starts a program whose two outputs go to two files.
static pid_t start(char **words, const char *out, const char *err) {
    pid_t child = fork();
    if (child == 0) {
        dup2(open("/dev/null", O_RDONLY), 0);
        dup2(open(out, O_CREAT | O_TRUNC | O_WRONLY, 0600), 1);
        dup2(open(err, O_CREAT | O_TRUNC | O_WRONLY, 0600), 2);
        execv(words[0], words);
        _exit(127);
    }
    return child;
}

// Waits for a child: its exit status, or -1 where it goes on after the limit.
static int ended(pid_t child) {
    struct pollfd watched = {.fd = syscall(SYS_pidfd_open, child, 0), .events = POLLIN};
    int came = poll(&watched, 1, limit), status = 0;
    close(watched.fd);
    if (came <= 0) {
        found_waiting = 1;
        return -1;
    }
    waitpid(child, &status, 0);
    return WIFEXITED(status) ? WEXITSTATUS(status) : 128;
}

// Runs a program and tells its exit, what it wrote, and the kernel's words.
static void command(int line, char **words) {
    char out[64], err[64];
    snprintf(out, sizeof out, "/tmp/out.%d", line);
    snprintf(err, sizeof err, "/tmp/err.%d", line);
    tell_kernel_words("between");
    int status = ended(start(words, out, err));
    fprintf(port, "command %d %d\n", line, status);
    tell_file("out", out);
    tell_file("err", err);
    tell_kernel_words("kernel");
}

// Runs a program whose words nobody reads.
static int quietly(const char *first, ...) {
    char *words[MOST_WORDS] = {(char *)first};
    va_list more;
    va_start(more, first);
    for (int at = 1; at < MOST_WORDS - 1 && (words[at] = va_arg(more, char *)); at++) {
    }
    va_end(more);
    return ended(start(words, "/tmp/out", "/tmp/err"));
}

// Writes a text to a file that is there.
static void put(const char *folder, const char *name, const char *text) {
    char path[256];
    snprintf(path, sizeof path, "%s/%s", folder, name);
    int file = open(path, O_WRONLY | O_TRUNC);
    if (file < 0 || write(file, text, strlen(text)) < 0) {
        fprintf(port, "fault %s: %s\n", path, strerror(errno));
    }
    close(file);
}

// Makes a disk of memory with a cache, which takes flushes and trims of single sectors.
static void make_memory(const char *folder, unsigned long sectors) {
    char size[32];
    snprintf(size, sizeof size, "%lu", sectors / 2048 + 1);
    mkdir(folder, 0700);
    put(folder, "size", size);
    put(folder, "blocksize", "512");
    put(folder, "max_sectors", "2048");
    put(folder, "memory_backed", "1");
    put(folder, "discard", "1");
    put(folder, "cache_size", "64");
    put(folder, "power", "1");
}

// Makes the memory disk /dev/ramN of just its sectors: a linear device over a part of a disk of memory.
static void make_disk(const char *number, unsigned long sectors) {
    char folder[64], name[32], table[128], minor[32], path[64], link[64];
    snprintf(folder, sizeof folder, "/sys/kernel/config/nullb/mem%.8s", number);
    snprintf(name, sizeof name, "disk:%.8s", number);
    snprintf(table, sizeof table, "0 %lu linear /dev/mem%.8s 0", sectors, number);
    snprintf(minor, sizeof minor, "%d", 200 + atoi(number));
    snprintf(path, sizeof path, "/dev/mapper/%s", name);
    snprintf(link, sizeof link, "/dev/ram%.8s", number);
    make_memory(folder, sectors);
    if (quietly("/sbin/dmsetup", "create", name, "--major", "253", "--minor", minor, "--table", table, NULL) != 0) {
        fprintf(port, "fault no disk %s of %lu sectors\n", number, sectors);
        tell_file("fault", "/tmp/err");
    }
    symlink(path, link);
}

// Does one order of the script.
static void order(char *text) {
    char *words[MOST_WORDS] = {0};
    int count = 0;
    for (char *word = strtok(text, " \n"); word && count < MOST_WORDS - 1; word = strtok(NULL, " \n")) {
        words[count++] = word;
    }
    if (count == 4 && strcmp(words[1], "disk") == 0) {
        make_disk(words[2], strtoul(words[3], NULL, 10));
    } else if (count == 3 && strcmp(words[1], "sleep") == 0) {
        sleep_until(later(now(), strtoull(words[2], NULL, 10)));
    } else if (count == 3 && strcmp(words[1], "limit") == 0) {
        limit = atoi(words[2]);
    } else if (count == 3 && strcmp(words[1], "digest") == 0) {
        tell_digest(atoi(words[0]), words[2]);
    } else if (count == 2 && strcmp(words[1], "replay") == 0) {
        replay();
    } else if (count == 2 && strcmp(words[1], "wait") == 0 && !all_ended()) {
        fprintf(port, "command %s -1\n", words[0]);
    } else if (count > 2 && strcmp(words[1], "dmsetup") == 0) {
        words[1] = "/sbin/dmsetup";
        command(atoi(words[0]), words + 1);
    } else if (count > 2 && strcmp(words[1], "run") == 0) {
        command(atoi(words[0]), words + 2);
    } else if (count == 3 && strcmp(words[1], "tell") == 0) {
        tell_file("out", words[2]);
    }
}

// Runs the orders of one bundle, in a process of its own, which says through a pipe that it is done.
static void run_bundle(const char *folder, int done) {
    char text[65536];
    chdir(folder);
    FILE *script = fopen("script", "r");
    read_logs();
    while (script && fgets(text, sizeof text, script)) {
        order(text);
    }
    all_ended();
    tell_answers();
    tell_kernel_words("between");
    fflush(port);
    tcdrain(fileno(port));
    write(done, &found_waiting, 1);
    _exit(0);
}

// Does something with each name of a folder, hidden ones left out.
static void each_name(const char *folder, void (*act)(const char *)) {
    DIR *names = opendir(folder);
    for (struct dirent *name; names && (name = readdir(names));) {
        if (name->d_name[0] != '.') {
            act(name->d_name);
        }
    }
    if (names) {
        closedir(names);
    }
}

// Lets a mapped device go on, so that what waits for it ends.
static void let_go(const char *name) {
    if (strcmp(name, "control") != 0) {
        quietly("/sbin/dmsetup", "resume", name, NULL);
    }
}

// Takes a disk of memory away.
static void take_away(const char *name) {
    char path[300];
    snprintf(path, sizeof path, "/sys/kernel/config/nullb/%s", name);
    if (strncmp(name, "mem", 3) == 0 && rmdir(path) != 0) {
        fprintf(port, "fault %s: %s\n", path, strerror(errno));
    }
}

// Takes a link to a disk away.
static void unlink_disk(const char *name) {
    char path[300];
    snprintf(path, sizeof path, "/dev/%s", name);
    if (strncmp(name, "ram", 3) == 0) {
        unlink(path);
    }
}

// Counts a mapped device among the devices of a folder.
static void count_mapped(const char *name) {
    mapped += strncmp(name, "dm-", 3) == 0;
}

// Whether no mapped device is left.
static int none_is_left(void) {
    mapped = 0;
    each_name("/sys/block", count_mapped);
    return mapped == 0;
}

// Takes all devices away: whether none is left.
static int tidy(void) {
    int left = 1;
    for (int round = 0; round < 40 && left; round++) {
        quietly("/sbin/dmsetup", "remove_all", round < 34 ? NULL : "--force", NULL);
        left = !none_is_left();
    }
    each_name("/dev", unlink_disk);
    if (!left) {
        each_name("/sys/kernel/config/nullb", take_away);
    }
    return !left;
}

// How long a bundle may take, in milliseconds, as its file `limit` says.
static int bundle_limit(const char *folder) {
    char path[80];
    int most = 600000;
    snprintf(path, sizeof path, "%s/limit", folder);
    FILE *file = fopen(path, "r");
    if (file) {
        fscanf(file, "%d", &most);
        fclose(file);
    }
    return most;
}

// Waits until a bundle's process is done or its time is over, and kills what it has left behind, once its devices run
// again.
static void see_end(int done, int most) {
    char waits = 1;
    struct pollfd watched = {.fd = done, .events = POLLIN};
    if (poll(&watched, 1, most) > 0) {
        read(done, &waits, 1);
    } else {
        fprintf(port, "fault it came to no end in %d ms\n", most);
    }
    close(done);
    if (waits) {
        each_name("/dev/mapper", let_go);
    }
    kill(-1, SIGKILL);
    sleep_until(later(now(), 100000));
    while (waitpid(-1, NULL, WNOHANG) > 0) {
    }
}

// Runs a bundle and tidies up behind it: whether the next bundle finds nothing of it.
static int bundle(int number) {
    char folder[64];
    snprintf(folder, sizeof folder, "/orders/%d", number);
    fprintf(port, "bundle %d\n", number);
    fflush(port);
    int done[2] = {-1, -1};
    pipe2(done, O_CLOEXEC);
    if (fork() == 0) {
        run_bundle(folder, done[1]);
    }
    close(done[1]);
    see_end(done[0], bundle_limit(folder));
    int clean = tidy();
    fprintf(port, "end %d %s\n", number, clean ? "clean" : "unclean");
    fflush(port);
    return clean;
}

// Puts the modules in that the list names, each line a file and its words.
static void load_modules(void) {
    char text[256];
    FILE *list = fopen("/modules/list", "r");
    while (list && fgets(text, sizeof text, list)) {
        *strchrnul(text, '\n') = 0;
        char *words = strchrnul(text, ' '), *given = *words ? words + 1 : words;
        *words = 0;
        int file = open(text, O_RDONLY);
        if (syscall(SYS_finit_module, file, given, 0) != 0) {
            fprintf(port, "fault %s: %s\n", text, strerror(errno));
        }
        close(file);
    }
}

// Makes the folders that all programs expect, and opens the serial line and the kernel's log.
static void set_up(void) {
    mount("none", "/dev", "devtmpfs", 0, NULL);
    mount("none", "/proc", "proc", 0, NULL);
    mount("none", "/sys", "sysfs", 0, NULL);
    mount("none", "/tmp", "tmpfs", 0, NULL);
    setenv("DM_DISABLE_UDEV", "1", 1);
    struct rlimit files = {.rlim_cur = 65536, .rlim_max = 65536};
    setrlimit(RLIMIT_NOFILE, &files);
    open_port();
    load_modules();
    mount("none", "/sys/kernel/config", "configfs", 0, NULL);
    kernel_words = open("/dev/kmsg", O_RDONLY | O_NONBLOCK | O_CLOEXEC);
    lseek(kernel_words, 0, SEEK_END);
}

// Tells the versions of the kernel, of dmsetup and of the targets.
static void tell_versions(void) {
    struct utsname names;
    uname(&names);
    fprintf(port, "linux %s\n", names.release);
    quietly("/sbin/dmsetup", "version", NULL);
    tell_file("dmsetup", "/tmp/out");
    quietly("/sbin/dmsetup", "targets", NULL);
    tell_file("target", "/tmp/out");
}

// All bundles one after another, until one leaves something behind.
int main(void) {
    int count = 0, clean = 1;
    set_up();
    tell_versions();
    FILE *counted = fopen("/orders/count", "r");
    if (counted && fscanf(counted, "%d", &count) == 1) {
        for (int number = 1; number <= count && clean; number++) {
            clean = bundle(number);
        }
    }
    fputs("off\n", port);
    fflush(port);
    tcdrain(fileno(port));
    reboot(RB_POWER_OFF);
    return 0;
}
