// What the two parts of the guest's program know of each other.
#include <stdio.h>
#include <time.h>

// The second serial line, on which the host is answered.
extern FILE *port;
// How long a command or the logs' end is waited for before it is told as one that waits, in milliseconds.
extern int limit;
// Whether a command or a log was found waiting.
extern char found_waiting;

// The moment that lies so many microseconds behind another.
struct timespec later(struct timespec from, unsigned long long micros);
// The moment at hand.
struct timespec now(void);
// Sleeps until a moment; one that has passed is not waited for.
void sleep_until(struct timespec moment);
// Reads the orders of the logs of a bundle, from files log.1, log.2 and so on.
void read_logs(void);
// Starts all logs at one moment.
void replay(void);
// Waits for all logs: whether all have ended within the limit.
int all_ended(void);
// Tells the answers of all logs; of one that waits still, those that it has.
void tell_answers(void);
// Tells the SHA-256 of all bytes of a device.
void tell_digest(int line, const char *path);
