/* What a second thread costs in a round trip, without any server.
 *
 *     cc -O2 -pthread -o wakeups bench/serve/wakeups.c
 *     ./wakeups THREADS COUNT
 *
 * A child answers 23 bytes by 75 over a socket pair, one at a time: with THREADS 1 the thread that reads
 * answers, with 2 it wakes another that does, as a connection's two sides do. Prints round trips per second.
 */
#define _GNU_SOURCE
#include <linux/futex.h>
#include <pthread.h>
#include <stdatomic.h>
#include <stdint.h>
#include <stdio.h>
#include <stdlib.h>
#include <sys/socket.h>
#include <sys/syscall.h>
#include <time.h>
#include <unistd.h>

enum { ASKED = 23, ANSWERED = 75 };
static _Atomic uint32_t bell, sleepers;
static int child_end;

static void answer(void) {
	static char reply[ANSWERED];
	if (send(child_end, reply, ANSWERED, MSG_NOSIGNAL) != ANSWERED) _exit(0);
}

static void *answers(void *none) {
	uint32_t seen = 0;
	for (;;) {
		uint32_t now;
		while ((now = bell) == seen) {
			sleepers++;
			syscall(SYS_futex, &bell, FUTEX_WAIT_PRIVATE, seen, NULL, NULL, 0);
			sleepers--;
		}
		for (; seen != now; seen++) answer();
	}
	return none;
}

static void ring(void) {
	bell++;
	if (sleepers) syscall(SYS_futex, &bell, FUTEX_WAKE_PRIVATE, 1, NULL, NULL, 0);
}

static void serve(int threads) {
	char asked[8192];
	pthread_t other;
	if (threads == 2) pthread_create(&other, NULL, answers, NULL);
	long have = 0, n;
	while ((n = recv(child_end, asked, sizeof asked, 0)) > 0)
		for (have += n; have >= ASKED; have -= ASKED) {
			if (threads == 2) ring();
			else answer();
		}
	_exit(0);
}

static double seconds(void) {
	struct timespec t;
	clock_gettime(CLOCK_MONOTONIC, &t);
	return t.tv_sec + t.tv_nsec / 1e9;
}

int main(int argc, char **argv) {
	if (argc != 3) return 1;
	long count = atol(argv[2]);
	int pair[2];
	if (socketpair(AF_UNIX, SOCK_STREAM, 0, pair)) return 1;
	if (fork() == 0) {
		close(pair[0]);
		child_end = pair[1];
		serve(atoi(argv[1]));
	}
	close(pair[1]);
	char asked[ASKED] = {0}, got[ANSWERED];
	double begun = seconds();
	for (long k = 0; k < count; k++) {
		if (write(pair[0], asked, ASKED) != ASKED) return 1;
		for (long have = 0, n; have < ANSWERED; have += n)
			if ((n = read(pair[0], got, ANSWERED - have)) <= 0) return 1;
	}
	printf("%.0f\n", count / (seconds() - begun));
	return 0;
}
