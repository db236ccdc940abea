/* The ROAs of a cache that rpki-client has filled, each under the chain that leads to it:
 *   find CACHE -name '*.roa' | xargs -n 5 rpki-client -nd CACHE -t TAL -f | cache CACHE TA.cer [SECONDS]
 * A certificate names its manifest, and the manifest that is good under the chain lists what is
 * below it: certificates, a revocation list and ROAs. The moment is now, or so many seconds after
 * 1970. A line for each ROA on which the two differ, or that is good there and not reached here; at
 * last how many there were and what they took. The status is 1 if one differs. */
#define _GNU_SOURCE
#include "rpki_check.h"

#include <stdio.h>
#include <stdlib.h>
#include <string.h>
#include <time.h>

enum { DEPTH = 32 };
struct verdict { char path[4096]; int is_good, is_asked; struct verdict *next; };

static struct verdict *printed;
static const char *cache;
static rpki_octets chain[DEPTH], lists[DEPTH];
static rpki_question question = { .chain = chain, .lists = lists };
static double asked, good, differ, seconds;
static void visit(void);

static void *made(void *memory)
{
	return memory != NULL ? memory : (exit(3), NULL);
}

static rpki_octets octets_of(const char *path)
{
	rpki_octets octets = { NULL, 0 };
	FILE *file = fopen(path, "rb");
	uint8_t *at = NULL;

	for (size_t got = file != NULL; got > 0; octets.length += got) {
		octets.at = at = made(realloc(at, octets.length + 65536));
		got = fread(at + octets.length, 1, 65536, file);
	}
	if (file != NULL)
		fclose(file);
	return octets;
}

/* The file of a path below a folder, or NULL if the path has a part "..". */
static char *joined(const char *folder, const void *path, size_t length)
{
	char *file = NULL;

	if (memmem(path, length, "..", 2) == NULL
	    && asprintf(&file, "%s/%.*s", folder, (int)length, (const char *)path) < 0)
		exit(3);
	return file;
}

/* The file of the manifest that a certificate names: an rsync URI of less than 128 octets. */
static char *manifest_of(rpki_octets cert)
{
	const uint8_t *at = cert.at, *end = cert.at + cert.length;

	for (; at != NULL && (at = memmem(at, (size_t)(end - at), "rsync://", 8)); at += 8) {
		size_t length = at > cert.at ? at[-1] : 0;
		if (length > 12 && length < 128 && length <= (size_t)(end - at)
		    && memcmp(at + length - 4, ".mft", 4) == 0)
			return joined(cache, at + 8, length - 8);
	}
	return NULL;
}

static void ask(const char *path)
{
	rpki_octets roa = octets_of(path);
	struct verdict *theirs = printed;
	clock_t from = clock();
	size_t count;
	uint32_t status = rpki_check_roa(&question, roa.at, roa.length, NULL, 0, &count);

	seconds += (double)(clock() - from) / CLOCKS_PER_SEC;
	asked++, good += status == RPKI_GOOD;
	while (theirs != NULL && strcmp(theirs->path, path) != 0)
		theirs = theirs->next;
	if (theirs != NULL && (theirs->is_asked = 1) && theirs->is_good != (status == RPKI_GOOD))
		differ++, printf("%s: %u here, %s by rpki-client\n", path, status,
		    theirs->is_good ? "good" : "not good");
	free((void *)roa.at);
}

/* Takes a file of a manifest: a list first, and then, in a second pass, what it may revoke. */
static void take(const char *file, const char *type, int pass)
{
	if (pass == 0 && strcmp(type, ".crl") == 0 && question.lists_length < DEPTH) {
		lists[question.lists_length++] = octets_of(file);
	} else if (pass == 1 && strcmp(type, ".roa") == 0) {
		ask(file);
	} else if (pass == 1 && strcmp(type, ".cer") == 0 && question.chain_length < DEPTH) {
		size_t before = question.lists_length;
		chain[question.chain_length++] = octets_of(file);
		visit();
		question.chain_length--, question.lists_length = before;
	}
}

/* Goes over what the last certificate of the chain publishes. */
static void visit(void)
{
	size_t last = question.chain_length, count = 0, length = 0;
	char *path = manifest_of(last > 0 ? chain[last - 1] : question.anchor);
	rpki_octets mft = octets_of(path != NULL ? path : "");

	rpki_check_manifest(&question, mft.at, mft.length, NULL, 0, &count, NULL, 0, &length);
	rpki_file *files = made(calloc(count + 1, sizeof *files));
	uint8_t *octets = made(malloc(length + 1));
	uint32_t status = rpki_check_manifest(&question, mft.at, mft.length, files, count, &count,
	    octets, length, &length);
	if (status != RPKI_GOOD)
		printf("%s: %u\n", path != NULL ? path : "no manifest is named", status);
	else
		*strrchr(path, '/') = 0;                /* from here on its folder */
	for (size_t i = 0; i < 2 * count; i++) {
		const rpki_file *it = &files[i % count];
		char *file = joined(path, octets + it->name, it->name_length);
		if (file != NULL && strlen(file) > 4)
			take(file, file + strlen(file) - 4, i >= count);
		free(file);
	}
	free(files), free(octets), free(path), free((void *)mft.at);
}

int main(int argc, char **argv)
{
	char line[4096], path[4096];

	if (argc != 3 && argc != 4)
		return fputs("cache CACHE TA.cer [SECONDS]\n", stderr), 2;
	cache = argv[1], question.anchor = octets_of(argv[2]);
	question.moment = rpki_moment_of(argc == 4 ? atoll(argv[3]) : time(NULL));
	while (fgets(line, sizeof line, stdin) != NULL)
		if (sscanf(line, "File: %4095s", path) == 1) {
			struct verdict *next = made(calloc(1, sizeof *next));
			strcpy(next->path, path), next->next = printed, printed = next;
		} else if (printed != NULL && sscanf(line, "Validation: %4095s", path) == 1)
			printed->is_good = strcmp(path, "OK") == 0;
	visit();
	for (const struct verdict *it = printed; it != NULL; it = it->next)
		if (it->is_good && !it->is_asked)
			differ++, printf("%s: not reached here, good by rpki-client\n", it->path);
	printf("%.0f ROAs, %.0f good, %.0f differ; %.2f ms each\n", asked, good, differ,
	    asked > 0 ? seconds / asked * 1e3 : 0);
	return differ != 0;
}
