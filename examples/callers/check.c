/* check KIND FILE MOMENT TA [CA ..]: the status of an object, its text, and the rows of a ROA.
 * KIND is a number of enum rpki_kind, or 0; MOMENT is YYYYMMDDHHMMSSZ. */
#include "rpki_check.h"

#include <arpa/inet.h>
#include <stdio.h>
#include <stdlib.h>

static rpki_octets octets_of(const char *path)
{
	rpki_octets octets = { NULL, 0 };
	FILE *file = fopen(path, "rb");
	uint8_t *at = NULL;
	size_t got;

	if (file == NULL)
		perror(path), exit(4);
	do {
		if ((at = realloc(at, octets.length + 65536)) == NULL)
			exit(3);
		got = fread(at + octets.length, 1, 65536, file);
		octets.length += got;
	} while (got > 0);
	fclose(file);
	octets.at = at;
	return octets;
}

int main(int argc, char **argv)
{
	rpki_question question = { 0 };
	rpki_octets object, chain[16];
	unsigned date[6];
	char *text, address[INET6_ADDRSTRLEN];
	rpki_payload *rows;
	size_t length = 0, room, count = 0;
	uint32_t kind, status;

	if (argc < 5 || argc > 20 || sscanf(argv[3], "%4u%2u%2u%2u%2u%2uZ", &date[0], &date[1],
	    &date[2], &date[3], &date[4], &date[5]) != 6)
		return fputs("check KIND FILE MOMENT TA [CA ..]\n", stderr), 2;
	object = octets_of(argv[2]);
	question.anchor = octets_of(argv[4]);
	for (int i = 5; i < argc; i++)
		chain[question.chain_length++] = octets_of(argv[i]);
	question.chain = chain;
	question.moment = (rpki_moment){ (uint16_t)date[0], (uint8_t)date[1], (uint8_t)date[2],
	    (uint8_t)date[3], (uint8_t)date[4], (uint8_t)date[5] };

	/* how long the text is, and then the text */
	kind = (uint32_t)atoi(argv[1]);
	rpki_check_object(&question, kind, object.at, object.length, NULL, 0, &length);
	if ((text = malloc((room = length) + 1)) == NULL)
		return 3;
	status = rpki_check_object(&question, kind, object.at, object.length, text, room, &length);
	length = length > room ? 0 : length;    /* memory may run out in between */
	printf("%u\n%.*s\n", status, (int)length, text);

	/* how many rows there are, and then the rows */
	rpki_check_roa(&question, object.at, object.length, NULL, 0, &count);
	if ((rows = calloc(count + 1, sizeof *rows)) == NULL)
		return 3;
	rpki_check_roa(&question, object.at, object.length, rows, count, &count);
	for (size_t i = 0; i < count; i++)
		printf("origin %s/%d-%d\n", inet_ntop(rows[i].family == 4 ? AF_INET : AF_INET6,
		    rows[i].address, address, sizeof address), rows[i].prefix_length,
		    rows[i].max_length);
	return status != RPKI_GOOD;
}
