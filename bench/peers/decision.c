/* Vectors of libsepol, the library behind checkpolicy and secilc: `decision POLICY ROUNDS` reads a binary policy with the types k0 to k127, asks ROUNDS times
 * 65,536 drawn pairs of them for what the first may do with a file of the second, and prints the nanoseconds of a processor that it took, and a sum. */
#include <stdio.h>
#include <stdint.h>
#include <stdlib.h>
#include <string.h>
#include <time.h>
#include <sepol/sepol.h>
#include <sepol/policydb/services.h>

enum { TYPES = 128, KEYS = 65536 };

static sepol_security_id_t ids[TYPES];
static uint8_t keys[KEYS][2];

static void give_up(const char *why)
{
	fprintf(stderr, "decision: %s\n", why);
	exit(1);
}

static void draw_keys(void)
{
	uint64_t state = 1;
	for (int key = 0; key < KEYS; key++) {
		state = state * 6364136223846793005u + 1442695040888963407u;
		keys[key][0] = (state >> 27) % TYPES;
		keys[key][1] = (state >> 37) % TYPES;
	}
}

static uint64_t now(void)
{
	struct timespec time;
	clock_gettime(CLOCK_PROCESS_CPUTIME_ID, &time);
	return time.tv_sec * 1000000000u + time.tv_nsec;
}

int main(int argc, char **argv)
{
	FILE *policy = argc == 3 ? fopen(argv[1], "rb") : NULL;
	sepol_security_class_t file;
	uint64_t sum = 0, begun;
	if (policy == NULL || sepol_set_policydb_from_file(policy) != 0)
		give_up("no policy");
	for (int type = 0; type < TYPES; type++) {
		char context[32];
		snprintf(context, sizeof context, "u:object_r:k%d", type);
		if (sepol_context_to_sid(context, strlen(context) + 1, &ids[type]) != 0)
			give_up("a context without an identifier");
	}
	if (sepol_string_to_security_class("file", &file) != 0)
		give_up("no class of files");
	draw_keys();
	begun = now();
	for (int round = atoi(argv[2]); round > 0; round--)
		for (int key = 0; key < KEYS; key++) {
			struct sepol_av_decision got;
			if (sepol_compute_av(ids[keys[key][0]], ids[keys[key][1]], file, 0, &got) != 0)
				give_up("no vector");
			sum = sum * 3 + got.allowed;
		}
	printf("%llu %llu\n", (unsigned long long)(now() - begun), (unsigned long long)sum);
}
