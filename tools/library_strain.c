/* library_strain MODE RELAXED FILE ..: the calls of rpki_check.h under strain, for
 * tools/library --strain.
 *
 * RELAXED is 0, or 1 where objects may be in BER. The files are a trust anchor's certificate, a
 * CA's, a revocation list, and then objects. Modes:
 *     once     each call once, for valgrind and AddressSanitizer
 *     growth   each allocation of each call is refused in turn
 *     threads  eight threads ask the same at once, for ThreadSanitizer too
 *     stack    all calls in a thread with 128 KiB of stack
 * Prints what is wrong, and at last how many answers were looked at. The status is 1 where one was
 * wrong.
 *
 * Link it with -Wl,--wrap=malloc,--wrap=realloc,--wrap=free. */
#include "rpki_check.h"

#include <pthread.h>
#include <stdio.h>
#include <stdlib.h>
#include <string.h>

enum { ROOM = 1 << 16, ROUNDS = 20, THREADS = 8, STACK = 128 * 1024, OBJECTS = 16 };
enum call { OBJECT, SHOW, ROA, ASPA, MANIFEST, CHECKLIST, MANY, SIGNATURE, EDITION, CALLS };

/* ---- memory: the allocation with this number is refused, and what is open is counted */

static _Thread_local long refused = -1, asked, open_blocks;
static _Thread_local int counting;
void *__real_malloc(size_t);
void *__real_realloc(void *, size_t);
void __real_free(void *);

void *__wrap_malloc(size_t size)
{
	void *made = counting && asked++ == refused ? NULL : __real_malloc(size);

	open_blocks += counting && made != NULL;
	return made;
}

void *__wrap_realloc(void *old, size_t size)
{
	void *made = counting && asked++ == refused ? NULL : __real_realloc(old, size);

	open_blocks += counting && made != NULL && old == NULL;
	return made;
}

void __wrap_free(void *old)
{
	open_blocks -= counting && old != NULL;
	__real_free(old);
}

/* ---- calls */

struct answer { uint32_t status; size_t lengths[2]; unsigned char written[2 * ROOM]; };

static rpki_question question;
static rpki_octets chain[1], lists[1], files[OBJECTS];
static rpki_object objects[OBJECTS];
static size_t count;
static long wrong, looked_at;
static pthread_mutex_t lock = PTHREAD_MUTEX_INITIALIZER;

static uint32_t status_of(int call, const rpki_octets *file, struct answer *a)
{
	const uint8_t *at = file->at;
	size_t size = file->length, *length = &a->lengths[0], *other_length = &a->lengths[1];
	size_t files_room = ROOM / sizeof(rpki_file), rows_room = ROOM / sizeof(rpki_payload);
	void *room = a->written, *other = a->written + ROOM;

	switch ((enum call)call) {
	case OBJECT:
		return rpki_check_object(&question, RPKI_NAMED, at, size, room, ROOM, length);
	case SHOW:
		return rpki_check_show(&question, RPKI_NAMED, at, size, room, ROOM, length);
	case ROA:
		return rpki_check_roa(&question, at, size, room, rows_room, length);
	case ASPA:
		return rpki_check_aspa(&question, at, size, room, ROOM / sizeof(uint32_t), length);
	case MANIFEST:
		return rpki_check_manifest(&question, at, size, room, files_room, length,
		    other, ROOM, other_length);
	case CHECKLIST:
		return rpki_check_checklist(&question, at, size, room, files_room, length,
		    other, ROOM, other_length);
	case MANY:
		return rpki_check_objects(&question, objects, count, room, ROOM / sizeof(uint32_t),
		    length);
	case EDITION:
		return rpki_check_edition(&question, at, size, other, room, ROOM, length);
	default:
		return rpki_check_signature(at, size, at, size, at, size);
	}
}

static void ask(int call, const rpki_octets *file, struct answer *a)
{
	memset(a, 0, sizeof *a);
	counting = 1;
	a->status = status_of(call, file, a);
	counting = 0;
}

static void look(int is_right, const char *what, int call, size_t file, long at)
{
	pthread_mutex_lock(&lock);
	looked_at++;
	if (!is_right && wrong++ < 20)
		printf("%s: call %d of file %zu, allocation %ld\n", what, call, file, at);
	pthread_mutex_unlock(&lock);
}

/* what may be answered where memory ran out: no row, and no line but that it did */
static int is_of_memory(int call, const struct answer *a, const struct answer *whole)
{
	if (call == MANY && a->status == RPKI_GOOD) {
		const uint32_t *got = (const void *)a->written;
		const uint32_t *wanted = (const void *)whole->written;

		for (size_t i = 0; i < count; i++)
			if (got[i] != wanted[i] && got[i] != RPKI_NO_MEMORY)
				return 0;
		return a->lengths[0] == count;
	}
	return a->status == RPKI_NO_MEMORY && a->lengths[1] == 0 && (a->lengths[0] == 0
	    || (call <= SHOW && a->lengths[0] == 13
	    && memcmp(a->written, "out of memory", 13) == 0));
}

static void refuse_each(int call, size_t file)
{
	static struct answer whole, a;

	ask(call, &files[file], &whole);
	for (long at = 0; ; at++) {
		asked = open_blocks = 0, refused = at;
		ask(call, &files[file], &a);
		refused = -1;
		look(open_blocks == 0, "memory is not freed", call, file, at);
		if (asked <= at)
			return look(memcmp(&a, &whole, sizeof a) == 0, "another answer", call, file,
			    at);
		look(memcmp(&a, &whole, sizeof a) == 0 || is_of_memory(call, &a, &whole),
		    "a wrong answer", call, file, at);
	}
}

static void *ask_all(void *rounds)
{
	struct answer *first = calloc(2, sizeof *first), *a = first + 1;

	for (int call = 0; call < CALLS; call++)
		for (size_t file = 0; file < count; file++) {
			ask(call, &files[file], first);
			for (int i = 0; i < *(int *)rounds; i++) {
				ask(call, &files[file], a);
				look(memcmp(first, a, sizeof *a) == 0, "another answer", call,
				    file, -1);
			}
		}
	free(first);
	return NULL;
}

static void in_threads(size_t threads, size_t stack, int rounds)
{
	pthread_t made[THREADS];
	pthread_attr_t how;

	pthread_attr_init(&how);
	if (stack > 0)
		pthread_attr_setstacksize(&how, stack);
	for (size_t i = 0; i < threads; i++)
		if (pthread_create(&made[i], &how, ask_all, &rounds))
			exit(4);
	for (size_t i = 0; i < threads; i++)
		pthread_join(made[i], NULL);
}

/* the octets of a file, with nothing behind them */
static rpki_octets octets_of(const char *path)
{
	FILE *file = fopen(path, "rb");
	uint8_t *at;
	long size;

	if (file == NULL || fseek(file, 0, SEEK_END) || (size = ftell(file)) < 0)
		perror(path), exit(4);
	rewind(file);
	if ((at = malloc((size_t)size)) == NULL || fread(at, 1, (size_t)size, file) != (size_t)size)
		perror(path), exit(4);
	fclose(file);
	return (rpki_octets){ at, (size_t)size };
}

int main(int argc, char **argv)
{
	if (argc < 7 || argc > 6 + OBJECTS)
		return fputs("library_strain MODE RELAXED ANCHOR CA LIST FILE ..\n", stderr), 2;
	question.relaxed = argv[2][0] == '1';
	question.anchor = octets_of(argv[3]);
	chain[0] = octets_of(argv[4]), lists[0] = octets_of(argv[5]);
	question.chain = chain, question.chain_length = 1;
	question.lists = lists, question.lists_length = 1;
	question.moment = (rpki_moment){ 2027, 1, 1, 0, 0, 0 };
	for (int i = 6; i < argc; i++, count++)
		objects[count] = (rpki_object){ RPKI_NAMED, files[count] = octets_of(argv[i]) };
	if (strcmp(argv[1], "once") == 0)
		ask_all(&(int){ 1 });
	else if (strcmp(argv[1], "threads") == 0)
		in_threads(THREADS, 0, ROUNDS);
	else if (strcmp(argv[1], "stack") == 0)
		in_threads(1, STACK, 1);
	else
		for (int call = 0; call < CALLS; call++)
			for (size_t file = 0; file < count; file++)
				refuse_each(call, file);
	printf("%ld answers, %ld wrong\n", looked_at, wrong);
	return wrong != 0;
}
