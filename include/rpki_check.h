/* rpki_check.h - checks of signed objects of the RPKI, by proved code, on Linux on x86-64.
 * Link with -lrpki_check, which is librpki_check.so.1 or librpki_check.a.
 *
 * A call reads what it is lent, writes into what it is lent, and keeps nothing: there is no
 * state, nothing to set up and nothing to free. Calls may run in several threads at once. A call
 * allocates by malloc and realloc, and frees all of it before it returns; if memory runs out it
 * answers RPKI_NO_MEMORY. It reads no file, no clock and no environment, prints nothing, and
 * never aborts. Call none from a signal handler.
 *
 * What C has to see to: each pointer leads to as many items as its length or room says (octets of
 * a text, rows of others), or is NULL if that is 0; question, edition, length and count are not
 * NULL; what a call writes overlaps nothing else that it is given; nobody changes what it reads
 * while it runs; and there are 128 KiB of stack. Octets and numbers may have any value. */
#ifndef RPKI_CHECK_H
#define RPKI_CHECK_H

#include <stddef.h>
#include <stdint.h>

#ifdef __cplusplus
extern "C" {
#endif

/* A library is compatible with this header if the upper 16 bits of its rpki_check_version() are
 * the same (the number in librpki_check.so.1) and the lower 16 bits are not less. */
#define RPKI_CHECK_VERSION 0x00010000
uint32_t rpki_check_version(void);

/* What a call answers: 0, or the number of a refusal, which stays as it is, beside its text. */
enum rpki_status {
	RPKI_GOOD = 0,          /* the octets begin with a good object */
	RPKI_NO_MEMORY = 1,     /* memory ran out: nothing is said of the octets; the text is
	                         * "out of memory", or none where memory lacked for it */
	RPKI_NO_MOMENT = 2,     /* "no such moment": the date is none */
	RPKI_NO_KIND = 3,       /* no kind has this number, or for kind 0 the octets begin with no
	                         * object, or with one that names no kind: there is no text */
	RPKI_NO_LIST = 4,       /* "no revocation list": one of the lists is none */
	RPKI_MALFORMED = 100,   /* "malformed", or a rule of the format that is broken:
	                         * the octets begin with no object of the kind */
	/* The object or its certificate does not fit the profile. */
	RPKI_SID_MISMATCH = 201,         /* Subject Key Identifier mismatch in signed object */
	RPKI_KEY_IDENTIFIER = 202,       /* key identifier mismatch */
	RPKI_NO_RESOURCES = 203,         /* no resources */
	RPKI_MISSING_AKI = 204,          /* missing AKI */
	RPKI_MISSING_CRL_URI = 205,      /* missing CRL URI */
	RPKI_MISSING_CA_ISSUER = 206,    /* missing CA issuer */
	RPKI_BASIC_CA = 207,             /* wrong basic constraints */
	RPKI_KEY_USAGE = 208,            /* wrong key usage */
	RPKI_EKU = 209,                  /* unexpected extended key usage */
	RPKI_MISSING_REPOSITORY = 210,   /* missing CA repository */
	RPKI_MISSING_MANIFEST = 211,     /* missing manifest URI */
	RPKI_SIGNED_OBJECT = 212,        /* unexpected signed object URI */
	RPKI_MISSING_SIGNED_OBJECT = 213, /* missing signed object URI */
	RPKI_CA_ACCESS = 214,            /* unexpected CA access */
	RPKI_TA_AKI = 215,               /* bad AKI of trust anchor */
	RPKI_TA_CRL_URI = 216,           /* unexpected CRL URI */
	RPKI_TA_CA_ISSUER = 217,         /* unexpected CA issuer */
	RPKI_TA_INHERIT = 218,           /* trust anchor inherits */
	RPKI_AS_NOT_COVERED = 219,       /* AS resources not covered */
	RPKI_V4_NOT_COVERED = 220,       /* IPv4 resources not covered */
	RPKI_V6_NOT_COVERED = 221,       /* IPv6 resources not covered */
	/* It fits the profile, and is not good under its issuer at the moment. */
	RPKI_DIGEST_MISMATCH = 301,      /* message digest mismatch in signed object */
	RPKI_SIGNING_TIME = 302,         /* signing time is after not_after validity time */
	RPKI_BAD_SIGNATURE = 303,        /* signature is not valid */
	RPKI_ISSUER_CLAIM = 304,         /* not issued by this CA */
	RPKI_NOT_YET_VALID = 305,        /* certificate is not yet valid */
	RPKI_EXPIRED = 306,              /* certificate has expired */
	RPKI_OVERCLAIMED_AS = 307,       /* overclaimed AS resources */
	RPKI_OVERCLAIMED_V4 = 308,       /* overclaimed IPv4 resources */
	RPKI_OVERCLAIMED_V6 = 309,       /* overclaimed IPv6 resources */
	RPKI_NO_AS_RESOURCES = 310,      /* EE certificate is missing AS resources */
	RPKI_INHERITED_AS = 311,         /* EE certificate contains inherited AS resources */
	RPKI_EMPTY_AS = 312,             /* EE certificate contains empty AS resources */
	RPKI_SEVERAL_AS_BLOCKS = 313,    /* EE certificate contains multiple AS resource blocks */
	RPKI_AS_RANGE = 314,             /* EE certificate contains AS resource with range */
	RPKI_OTHER_CUSTOMER = 315, /* EE certificate does not contain customer AS in AS resources */
	RPKI_IP_RESOURCES = 316,         /* EE certificate is contains IP resources */
	RPKI_CUSTOMER_NOT_HELD = 317,    /* customer AS not held */
	RPKI_NO_V4_COVERED = 318,        /* no IPv4 ROA prefix covered by certificate */
	RPKI_NO_V6_COVERED = 319,        /* no IPv6 ROA prefix covered by certificate */
	RPKI_UNCOVERED_PREFIX = 320,     /* ROA prefix 192.0.2.0/24 not covered by certificate */
	RPKI_CHECKLIST_NOT_HELD = 321,   /* checklist resources not held */
	RPKI_MANIFEST_HASH = 322,        /* manifest hash mismatch (no call answers it) */
	RPKI_UNKNOWN_KEY = 323,          /* public key not found in chain */
	RPKI_SIGNER_DIGEST = 324,        /* message digest mismatch */
	RPKI_MISSING_CERTIFICATE = 325,  /* missing certificate */
	RPKI_MISSING_CRL = 326,          /* missing CRL */
	RPKI_UNUSED_SUBJECT_KEYS = 327,  /* unused subject keys */
	RPKI_UNUSED_CRLS = 328,          /* unused CRLs */
	RPKI_UNUSED_EE_CERTIFICATES = 329, /* unused EE certificates */
	RPKI_INVALID_CA_CERTIFICATES = 330, /* only invalid CA certificates found */
	RPKI_PATH_RETURNS = 331,         /* path returns */
	RPKI_CA_REVOKED = 332,   /* CA certificate has been revoked (1332 for one of a question) */
	RPKI_UNUSED_CA_CERTIFICATES = 333, /* unused CA certificates */
	RPKI_NOT_ANCHORED = 334,         /* RTA could not be validated */
	RPKI_AS_NOT_FULLY_COVERED = 335, /* AS resources not fully covered */
	RPKI_IP_NOT_FULLY_COVERED = 336, /* IP resources not fully covered */
	RPKI_REVOKED = 337,      /* refused by the caller (a list revokes its certificate) */
	/* The certificates of the question make no issuer: 1000 more than the numbers above, as
	 * 1100 where one is malformed, 1306 where one has expired, 1332 where one is revoked. */
	RPKI_OF_ISSUER = 1000
};

enum rpki_kind {
	RPKI_NAMED = 0,       /* the one that the content type of the object names */
	RPKI_ROA = 1,         /* RFC 9582 */
	RPKI_ASPA = 2,        /* draft-ietf-sidrops-aspa-profile-15 */
	RPKI_MANIFEST = 3,    /* RFC 9286 */
	RPKI_CHECKLIST = 4,   /* RFC 9323 */
	RPKI_ATTESTATION = 5  /* draft-michaelson-rpki-rta; always in DER */
};

/* Octets, lent. */
typedef struct rpki_octets { const uint8_t *at; size_t length; } rpki_octets;

/* A moment in UTC. The year is 0 to 9999, and there is no second 60. */
typedef struct rpki_moment {
	uint16_t year;
	uint8_t month, day, hour, minute, second;
} rpki_moment;

/* What to check against: certificates, revocation lists, a moment, options. Start from { 0 }. */
typedef struct rpki_question {
	rpki_octets anchor;         /* a trust anchor's certificate; all of these in DER */
	const rpki_octets *chain;   /* those of CAs, each under the one before: */
	size_t chain_length;        /* the last one issued the object */
	const rpki_octets *lists;   /* revocation lists, in any order; one counts for an */
	size_t lists_length;        /* issuer that it names and whose key signed it */
	rpki_moment moment;
	uint8_t relaxed;            /* not 0: objects may be in BER */
	uint8_t registered;         /* not 0: RFC 9286's rules for file names */
	uint8_t wide;               /* not 0: up to 16,380 providers, not 10,000 */
} rpki_question;

/* Checks an object of a kind. The answer is RPKI_GOOD exactly if the certificates make an issuer
 * (RFC 6487, section 7.2), the octets begin with an object of the kind that is good under it at
 * the moment, and no list revokes a certificate of the chain or that of the object; unless memory
 * runs out. Else it is the number of the first check that fails. Octets after the object and the
 * times of lists are ignored. Of an attestation, the issuer is the one CA under which it may be
 * granted, lists count for its certificates that this CA issued, and one whose certificates repeat
 * an identifier may be refused although it is good.
 *
 * The text is the lines that `rpki_verify check` prints below `yes`, or why the object is not
 * good. It is UTF-8, and not terminated by a 0.
 *
 * *length is always the length of the whole text; it and the room are in octets. The text is
 * written if it fits, and else nothing is: call again with a room of *length, which gives the same
 * answer. A room of NULL and 0 asks for the status alone. */
uint32_t rpki_check_object(const rpki_question *question, uint32_t kind, const uint8_t *object,
    size_t object_length, char *text, size_t room, size_t *length);

/* What an object of a kind says, without a check: RPKI_GOOD says only that the octets begin with
 * one. Of the question, the options alone are looked at. The room is in octets. */
uint32_t rpki_check_show(const rpki_question *question, uint32_t kind, const uint8_t *object,
    size_t object_length, char *text, size_t room, size_t *length);

/* Octets that are to begin with an object of a kind. */
typedef struct rpki_object { uint32_t kind; rpki_octets octets; } rpki_object;

/* Checks many objects on one question, whose certificates and lists are read once. The answer is
 * RPKI_GOOD with *count = objects_length and a status of each object, as rpki_check_object answers
 * it, or the number of what is wrong with the question with *count = 0. The room is counted in
 * statuses. They are written if all fit, and else none: read them only if the answer is RPKI_GOOD
 * and *count <= room. */
uint32_t rpki_check_objects(const rpki_question *question, const rpki_object *objects,
    size_t objects_length, uint32_t *statuses, size_t room, size_t *count);

/* A prefix that an AS may originate. */
typedef struct rpki_payload {
	uint8_t address[16];  /* in network order; IPv4 in the first four */
	uint32_t asn;
	uint8_t family;       /* 4 or 6 */
	uint8_t prefix_length;
	uint8_t max_length;   /* the prefix's, if the ROA has none */
	uint8_t zero;
} rpki_payload;

/* Checks a ROA, as rpki_check_object does with RPKI_ROA. *count is the number of its prefixes, 0 if
 * it is not good. The room is counted in prefixes; they are written if all fit, IPv4 first, in the
 * order of the ROA, and else none is. */
uint32_t rpki_check_roa(const rpki_question *question, const uint8_t *object,
    size_t object_length, rpki_payload *payloads, size_t room, size_t *count);

/* Checks an ASPA in the same way. The numbers, in which the room is counted, are the customer and
 * then its providers, in ascending order. */
uint32_t rpki_check_aspa(const rpki_question *question, const uint8_t *object,
    size_t object_length, uint32_t *numbers, size_t room, size_t *count);

/* When a manifest was made and when the next one is due: numbers to compare with one another, and
 * with the rpki_stamp_of of a moment. */
typedef struct rpki_edition { uint64_t this_update, next_update; } rpki_edition;

/* Checks a manifest in the same way. Its moments are written if it is good, and then its number, in
 * lower hexadecimal, at most 40 digits, if it fits: the room is in octets. */
uint32_t rpki_check_edition(const rpki_question *question, const uint8_t *object,
    size_t object_length, rpki_edition *edition, char *number, size_t room, size_t *length);

/* A file of a manifest or a checklist: where its name and its hash stand among the octets that are
 * written with it; named is 0 if a checklist gives no name, and else 1. */
typedef struct rpki_file { size_t name, name_length, hash, hash_length, named; } rpki_file;

/* Check a manifest and a checklist in the same way, with two rooms: one, counted in files, for
 * *count of them in their order, and one, counted in octets, for the *length octets in which names
 * and hashes stand. Each is written if all of it fits, else not. */
uint32_t rpki_check_manifest(const rpki_question *question, const uint8_t *object,
    size_t object_length, rpki_file *files, size_t room, size_t *count, uint8_t *octets,
    size_t octets_room, size_t *length);
uint32_t rpki_check_checklist(const rpki_question *question, const uint8_t *object,
    size_t object_length, rpki_file *files, size_t room, size_t *count, uint8_t *octets,
    size_t octets_room, size_t *length);

/* Verifies a signature of a message: RSASSA-PKCS1-v1_5 with SHA-256. The key is the bits of a
 * subjectPublicKey: RSA of 2048 to 4096 bits, with exponent 65537. The answer is RPKI_GOOD or
 * RPKI_BAD_SIGNATURE, unless memory runs out. */
uint32_t rpki_check_signature(const uint8_t *key, size_t key_length, const uint8_t *message,
    size_t message_length, const uint8_t *signature, size_t signature_length);

/* A number for a moment: different for each, and greater for a later one. */
static inline uint64_t rpki_stamp_of(rpki_moment m)
{
	return ((((m.year * UINT64_C(13) + m.month) * 32 + m.day) * 24 + m.hour) * 60
	    + m.minute) * 60 + m.second;
}

/* The moment of a time in seconds since 1970; year 10000 (no moment) if it has none. */
static inline rpki_moment rpki_moment_of(int64_t seconds)
{
	rpki_moment m = { 10000, 0, 0, 0, 0, 0 };
	uint32_t days, day, year, rest, month, second;
	if (seconds < 0 || seconds >= INT64_C(253402300800))
		return m;
	days = (uint32_t)(seconds / 86400) + 719468;    /* since 1 March of the year 0 */
	second = (uint32_t)(seconds % 86400);
	day = days % 146097;                            /* in its 400 years */
	year = (day - day / 1460 + day / 36524 - day / 146096) / 365;
	rest = day - (365 * year + year / 4 - year / 100);
	month = (5 * rest + 2) / 153;                   /* from March on */
	m.year = (uint16_t)(days / 146097 * 400 + year + (month >= 10));
	m.month = (uint8_t)(month < 10 ? month + 3 : month - 9);
	m.day = (uint8_t)(rest - (153 * month + 2) / 5 + 1);
	m.hour = (uint8_t)(second / 3600), m.minute = (uint8_t)(second / 60 % 60);
	m.second = (uint8_t)(second % 60);
	return m;
}

#ifdef __cplusplus
}
#endif
#endif
