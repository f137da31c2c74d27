/* SPDX-License-Identifier: Apache-2.0 OR MIT */
/*
 * bactool.h: the messages of BACnet (ANSI/ASHRAE 135) for C and C++, by the library libbactool.
 *
 * A frame is one NPDU (clause 6 of the standard), with an APDU or a network message in it. It begins with the version
 * octet 01: what a data link puts before it, such as the 4 or 10 octets of BVLL in a UDP packet, is not part of it. The
 * standard lets some frames be encoded in several ways. One of them is canonical, no other is shorter, and the library
 * writes only that one. The others are tolerated. Octets that encode no frame are refused, with the reason and the
 * place.
 *
 *     const uint8_t octets[] = {0x01, 0x04, 0x00, 0x05, 0x01, 0x0C, 0x0C, 0x00, 0x00, 0x00, 0x05, 0x19, 0x55};
 *     char line[256];
 *     struct bactool_outcome outcome;
 *     if (bactool_show(octets, sizeof octets, line, sizeof line, &outcome) == BACTOOL_OK)
 *         printf("%.*s\n", (int)outcome.count, line);
 *
 * prints `prio=0 reply=1 conf id=1 sa=0 segs=0 resp=5 ReadProperty object=0:5 property=85`.
 *
 * Two more headers are beside this one, for who wants them. bactool_helpers.h makes the fields of a frame, and finds
 * results and values among them. bactool_names.h has the standard's numbers by name, such as BACTOOL_PROPERTY_UNITS.
 *
 * What holds for every call:
 *
 *   - It returns on every input. It keeps no pointer, has no state, and frees the memory that it takes, so any calls
 *     may run in any threads at the same time. It takes memory by malloc, so it must not be called from a signal
 *     handler, or in the forked child of a process with threads. It needs less than 16 KB of stack, as measured on
 *     x86-64.
 *   - A pointer and a length are that many octets. The call reads them, and nobody may change them meanwhile. A pointer
 *     and a `room` are a buffer with a capacity of that many octets, which the call may write. NULL with length or room
 *     0 means no octets. No other pointer may be NULL. Macros of this header replace NULL by an address. A call through
 *     a function pointer, or from another language, does not use them, and must pass some address in place of NULL.
 *   - Frames, fields and texts may have any length: memory is the only limit. The 65,535 octets of a record limit the
 *     files of the program `bactool`, and the segments of bactool_cut and bactool_join. What is inside a frame has
 *     limits: at most 32 groups nest, and the contents of one element of a value have at most 1,048,576 octets.
 *   - What a call writes, `out`, `fields`, `head`, `pieces` and `outcome`, must not overlap anything else that is
 *     passed to it. What it reads may overlap, and is never written.
 *   - Each call except bactool_reason, bactool_name and bactool_version returns one of the codes below and fills in the
 *     whole of `outcome`. If the code is not BACTOOL_OK, `out` and `fields` are as they were; only bactool_explain_text
 *     writes with other codes too. What is after the octets and the fields that are written is as it was. No text ends
 *     in a NUL.
 *
 * Link with -lbactool; `pkg-config --cflags --libs bactool` prints the flags, and CMake has find_package(bactool) and
 * the target bactool::bactool. The shared library is libbactool.so.1. The 1 changes with each release in which a
 * struct, a number or a call of this header is no longer what it was. A new call or name does not change it.
 */
#ifndef BACTOOL_H
#define BACTOOL_H

#include <stdbool.h>
#include <stddef.h>
#include <stdint.h>

#ifdef __cplusplus
extern "C" {
#endif

/* The version of this header: 10,000 times the major number, plus 100 times the minor number, plus the patch number.
   Here it is 0.3.0. */
#define BACTOOL_VERSION 300

/*
 * A call that came after version 0.2.0 has a macro, so that a program can be compiled with older headers too:
 *
 *     #ifdef BACTOOL_HAS_ENCODE
 *
 * The macros are about this header. bactool_version returns the version of the library that is linked.
 */
#define BACTOOL_HAS_ENCODE 1
#define BACTOOL_HAS_READ 1
#define BACTOOL_HAS_HEAD 1
#define BACTOOL_HAS_CUT 1
#define BACTOOL_HAS_JOIN 1
#define BACTOOL_HAS_EXPLAIN 1
#define BACTOOL_HAS_PIECE_TEXT 1
#define BACTOOL_HAS_EXPLAIN_TEXT 1

/* A conversion that compilers for C and for C++ take without a warning. */
#ifdef __cplusplus
#define BACTOOL_CAST(type, value) static_cast<type>(value)
#else
#define BACTOOL_CAST(type, value) ((type)(value))
#endif

/* What a call returns. */
enum bactool_code {
    BACTOOL_OK = 0,            /* what was asked holds, or is done */
    BACTOOL_TOLERATED = 1,     /* the octets encode a frame, and are not its canonical ones */
    BACTOOL_DIFFERENT = 2,     /* the two inputs encode different frames */
    BACTOOL_REFUSED = 3,       /* the octets, the fields or the text are refused: `why` and `place` */
    BACTOOL_LEFT_REFUSED = 4,  /* the left one of two inputs encodes no frame: `why` and `place` */
    BACTOOL_RIGHT_REFUSED = 5, /* the right one encodes none, and the left one does: `why` and `place` */
    BACTOOL_NO_ROOM = 6,       /* a capacity is too small: `count` octets are needed, and `fields` fields */
    BACTOOL_NO_MEMORY = 7,     /* memory was refused: `why` is BACTOOL_OUT_OF_MEMORY */
    /* Only from bactool_cut. */
    BACTOOL_NO_SERVICE = 8,  /* the frame has no service that is cut */
    BACTOOL_BAD_SIZE = 9,    /* the size of the pieces is 0 */
    BACTOOL_BAD_WINDOW = 10, /* the window is not 1 to 127 */
    /* From bactool_cut and bactool_join. */
    BACTOOL_TOO_LONG = 11, /* a message, or the frame of a segment, has more than 65,535 octets */
    /* Only from bactool_cut. */
    BACTOOL_TOO_MANY = 12, /* there would be more than 256 segments */
    /* Only from bactool_join. */
    BACTOOL_TRUNCATED = 13,      /* the octets end within a record: `place` */
    BACTOOL_NO_SEGMENT = 14,     /* a record holds no segment: `place` */
    BACTOOL_CONFLICT = 15,       /* a record is not of the message of those before it: `place` */
    BACTOOL_INCOMPLETE = 16,     /* a segment is missing: `place` */
    BACTOOL_SERVICE_REFUSED = 17 /* the joined octets are no service: `why` and `place` */
};

/* Why octets, fields or a text are refused. bactool_reason writes the name. */
enum bactool_why {
    BACTOOL_SHORT = 1,          /* the octets end where more must come */
    BACTOOL_TRAILING = 2,       /* the octets before the place are a whole message, and the octet there does not
                                   continue it. Often it is padding, or begins an optional field with a wrong tag or
                                   length */
    BACTOOL_BAD_VERSION = 3,    /* the version octet is not 1 */
    BACTOOL_ADDRESS = 4,        /* a source address of length 0 */
    BACTOOL_PDU_TYPE = 5,       /* a PDU type that is not used */
    BACTOOL_WINDOW = 6,         /* a window size that is not 1 to 127 */
    BACTOOL_TAG = 7,            /* a tag that cannot be here */
    BACTOOL_LENGTH = 8,         /* a length that cannot be here */
    BACTOOL_CONTENT = 9,        /* contents that no value has */
    BACTOOL_DEPTH = 10,         /* a group inside 32 others. Only octets are refused so: among fields such a group is
                                   BACTOOL_BAD_NAME, and in a text BACTOOL_BAD_TEXT */
    BACTOOL_NOT_CANONICAL = 11, /* a tolerated encoding, and canonical octets were asked for: only by bactool_check */
    BACTOOL_OUT_OF_MEMORY = 12, /* memory was refused */
    /* Only from bactool_encode. There BACTOOL_SHORT and BACTOOL_TRAILING are about fields in place of octets. */
    BACTOOL_BAD_NAME = 13,     /* a field with a name that cannot be here */
    BACTOOL_BAD_NUMBER = 14,   /* a field with a number that it cannot have here */
    BACTOOL_BAD_CONTENTS = 15, /* a field with contents that it cannot have here, or that are not in the octets */
    /* Only from bactool_read. There BACTOOL_SHORT means that the text ends where more must come. */
    BACTOOL_BAD_TEXT = 16 /* an octet that no text of a frame has there */
};

/* What a call reports beside its code. A member that does not apply to the code is 0. */
struct bactool_outcome {
    uint32_t why;  /* an enum bactool_why: the reason of a refusal */
    size_t place;  /* where: an offset in the octets or in the text, the index of a field or of a record, or the number
                      of a segment, counted from 0. Each call says which */
    size_t count;  /* the number of octets that are written, or that would be with enough capacity. Where bactool_join
                      refuses a record, it is the index of the record */
    size_t fields; /* the number of fields that bactool_decode writes, or of pieces that bactool_explain writes, or that
                      they would write with enough capacity */
};

/*
 * The names of fields. The fields of a frame are the parts of its text, in their order; section 8.4 of docs/FORMATS.md
 * has their table. In the comments a word in quotes is how the text begins the field. The numbers never change.
 *
 * Eleven names have contents, such as an address or a string: DESTINATION, SOURCE, OCTETS, PORT_INFO, DATA,
 * OCTET_STRING, CHARACTER_STRING, BIT_STRING, DATE, TIME_OF_DAY and CONTEXT_PRIMITIVE. All others have only a number.
 *
 * The number of READ_PROPERTY is its service choice, 12, and so for each service that has a name. The number of OPAQUE
 * is 0: the choice of such a service is in the field CHOICE after it.
 */
enum bactool_field_name {
    BACTOOL_FIELD_NETWORK_PRIORITY = 1, /* the network priority of the frame, 0 to 3 (clause 6.2.2) ("prio=") */
    BACTOOL_FIELD_REPLY_EXPECTED = 2, /* whether a reply is expected: 0 or 1 (clause 6.2.2) ("reply=") */
    /* the destination: its network, with the address on it as contents. An address without octets is that of every
       device on the network ("dest=") */
    BACTOOL_FIELD_DESTINATION = 3,
    BACTOOL_FIELD_HOP_COUNT = 4, /* the hop count of the destination (clause 6.2.2) ("hops=") */
    BACTOOL_FIELD_SOURCE = 5, /* the source: its network, with the address on it as contents ("src=") */
    BACTOOL_FIELD_CONFIRMED_REQUEST = 10, /* a Confirmed-Request in one piece ("conf") */
    BACTOOL_FIELD_UNCONFIRMED_REQUEST = 11, /* an Unconfirmed-Request ("unconf") */
    BACTOOL_FIELD_SIMPLE_ACK = 12, /* a SimpleACK ("simple") */
    BACTOOL_FIELD_COMPLEX_ACK = 13, /* a ComplexACK in one piece ("ack") */
    BACTOOL_FIELD_SEGMENT_ACK = 14, /* a SegmentACK ("segack") */
    BACTOOL_FIELD_ERROR = 15, /* an Error ("error") */
    BACTOOL_FIELD_REJECT = 16, /* a Reject ("reject") */
    BACTOOL_FIELD_ABORT = 17, /* an Abort ("abort") */
    BACTOOL_FIELD_REQUEST_SEGMENT = 18, /* a segment of a Confirmed-Request ("conf-seg") */
    BACTOOL_FIELD_ACK_SEGMENT = 19, /* a segment of a ComplexACK ("ack-seg") */
    BACTOOL_FIELD_INVOKE_ID = 20, /* the invoke id ("id=") */
    BACTOOL_FIELD_SEGMENTED_ACCEPTED = 21, /* whether a segmented answer is accepted: 0 or 1 ("sa=") */
    /* how many segments of an answer are accepted, as the number 0 to 7 that encodes it ("segs=") */
    BACTOOL_FIELD_MAX_SEGMENTS = 22,
    /* how long an APDU of the answer may be, as the number 0 to 15 that encodes it ("resp=") */
    BACTOOL_FIELD_MAX_RESPONSE = 23,
    BACTOOL_FIELD_SEQUENCE = 24, /* the sequence number of a segment ("seq=") */
    BACTOOL_FIELD_WINDOW = 25, /* the proposed or actual window, 1 to 127 ("win=") */
    BACTOOL_FIELD_MORE = 26, /* whether more segments follow: 0 or 1 ("more=") */
    BACTOOL_FIELD_NEGATIVE = 27, /* whether a segment was received out of order: 0 or 1 ("nak=") */
    BACTOOL_FIELD_SERVER = 28, /* whether the server sent it: 0 or 1 ("srv=") */
    /* why a request was rejected, a transaction aborted, or a frame not passed on ("reason=") */
    BACTOOL_FIELD_REASON = 29,
    BACTOOL_FIELD_CHOICE = 30, /* the service choice, where no word names the service ("choice=") */
    BACTOOL_FIELD_OCTETS = 31, /* the octets of an opaque service, or the piece of a segment, as contents ("octets=") */
    BACTOOL_FIELD_NETWORK_MESSAGE = 40, /* a network message, with its message type ("net type=") */
    BACTOOL_FIELD_NETWORK = 41, /* the number of a network ("network=") */
    BACTOOL_FIELD_NETWORKS = 42, /* a list of networks begins ("networks=(") */
    BACTOOL_FIELD_LISTED_NETWORK = 43, /* one network of a list */
    BACTOOL_FIELD_PERFORMANCE = 44, /* how well a connection performs ("performance=") */
    BACTOOL_FIELD_PORTS = 45, /* a routing table begins ("ports=(") */
    BACTOOL_FIELD_PORT_ID = 46, /* the number of a port of a routing table ("id=") */
    BACTOOL_FIELD_PORT_INFO = 47, /* the information on a port, as contents ("info=") */
    BACTOOL_FIELD_TIME = 48, /* how long a connection is to stay, in minutes; 0 means until it is ended ("time=") */
    BACTOOL_FIELD_FLAG = 49, /* whether the number of a network was configured or learned ("flag=") */
    BACTOOL_FIELD_VENDOR = 50, /* a vendor identifier ("vendor=") */
    BACTOOL_FIELD_DATA = 51, /* the octets of a network message without a layout, as contents ("data=") */
    BACTOOL_FIELD_READ_PROPERTY = 60, /* a ReadProperty or its answer; number 12 ("ReadProperty") */
    /* a ReadPropertyMultiple or its answer; number 14 ("ReadPropertyMultiple") */
    BACTOOL_FIELD_READ_PROPERTY_MULTIPLE = 61,
    BACTOOL_FIELD_WRITE_PROPERTY = 62, /* a WriteProperty; number 15 ("WriteProperty") */
    BACTOOL_FIELD_WRITE_PROPERTY_MULTIPLE = 63, /* a WritePropertyMultiple; number 16 ("WritePropertyMultiple") */
    BACTOOL_FIELD_WHO_IS = 64, /* a Who-Is; number 8 ("Who-Is") */
    BACTOOL_FIELD_I_AM = 65, /* an I-Am; number 0 ("I-Am") */
    BACTOOL_FIELD_SUBSCRIBE_COV = 66, /* a SubscribeCOV; number 5 ("SubscribeCOV") */
    /* a ConfirmedCOVNotification; number 1 ("ConfirmedCOVNotification") */
    BACTOOL_FIELD_CONFIRMED_COV_NOTIFICATION = 67,
    /* an UnconfirmedCOVNotification; number 2 ("UnconfirmedCOVNotification") */
    BACTOOL_FIELD_UNCONFIRMED_COV_NOTIFICATION = 68,
    /* a service whose octets are kept as they are. Its choice is a field of its own ("opaque") */
    BACTOOL_FIELD_OPAQUE = 69,
    /* an object identifier, as its 32 bits: 10 for the type and 22 for the instance ("object=") */
    BACTOOL_FIELD_OBJECT = 80,
    BACTOOL_FIELD_PROPERTY = 81, /* a property identifier ("property=") */
    BACTOOL_FIELD_INDEX = 82, /* the index of an element of an array ("index=") */
    BACTOOL_FIELD_PRIORITY = 83, /* the priority of a write, 1 to 16 ("priority=") */
    BACTOOL_FIELD_PROCESS = 84, /* the number of the subscriber's process ("process=") */
    /* the device that sends a notification, as the 32 bits of its object identifier ("device=") */
    BACTOOL_FIELD_DEVICE = 85,
    BACTOOL_FIELD_CONFIRMED = 86, /* whether notifications are to be confirmed: 0 or 1 ("confirmed=") */
    BACTOOL_FIELD_LIFETIME = 87, /* how many seconds a subscription is to last; 0 is without end ("lifetime=") */
    BACTOOL_FIELD_REMAINING = 88, /* how many seconds a subscription continues; 0 is without end ("remaining=") */
    BACTOOL_FIELD_LOW = 89, /* the lowest instance that is sought ("low=") */
    BACTOOL_FIELD_HIGH = 90, /* the highest instance that is sought ("high=") */
    BACTOOL_FIELD_MAX_APDU = 91, /* how many octets of an APDU a device accepts ("apdu=") */
    BACTOOL_FIELD_SEGMENTATION = 92, /* which segmentation a device supports ("segmentation=") */
    BACTOOL_FIELD_ERROR_CLASS = 93, /* the class of an error ("class=") */
    BACTOOL_FIELD_ERROR_CODE = 94, /* the code of an error ("code=") */
    BACTOOL_FIELD_SPECIFICATIONS = 110, /* a list of access specifications begins ("specs=(") */
    BACTOOL_FIELD_PROPERTIES = 111, /* a list of references to properties begins ("properties=(") */
    BACTOOL_FIELD_RESULTS = 112, /* a list of results begins ("results=(") */
    BACTOOL_FIELD_VALUES = 113, /* a list of values of properties begins ("values=(") */
    BACTOOL_FIELD_LIST_END = 114, /* a list ends (")") */
    BACTOOL_FIELD_ITEM = 115, /* an item of a list begins ("(") */
    BACTOOL_FIELD_ITEM_END = 116, /* an item of a list ends (")") */
    BACTOOL_FIELD_VALUE = 117, /* an open value begins ("value={") */
    BACTOOL_FIELD_VALUE_END = 118, /* an open value ends ("}") */
    /* why a property has no value begins: the class and the code of an error ("error=(") */
    BACTOOL_FIELD_PROPERTY_ERROR = 119,
    BACTOOL_FIELD_PROPERTY_ERROR_END = 120, /* why a property has no value ends (")") */
    BACTOOL_FIELD_GROUP = 121, /* a group with this number begins in an open value ("[N]{") */
    BACTOOL_FIELD_GROUP_END = 122, /* a group ends. It has this number ("}") */
    BACTOOL_FIELD_NULL = 130, /* a Null ("null") */
    BACTOOL_FIELD_BOOLEAN = 131, /* a Boolean: 0 or 1 ("true" or "false") */
    BACTOOL_FIELD_UNSIGNED = 132, /* an Unsigned Integer ("u:") */
    BACTOOL_FIELD_SIGNED = 133, /* a Signed Integer, as 64 bits of two's complement ("i:") */
    BACTOOL_FIELD_REAL = 134, /* the 32 bits of a Real ("r:") */
    BACTOOL_FIELD_DOUBLE = 135, /* the 64 bits of a Double ("d:") */
    BACTOOL_FIELD_OCTET_STRING = 136, /* an Octet String: its octets as contents ("o:") */
    /* a Character String: the number of its character set, and the octets after that number as contents ("s:") */
    BACTOOL_FIELD_CHARACTER_STRING = 137,
    /* a Bit String: how many bits, and the octets that hold them as contents, each from bit 7 downwards. Unused bits
       are 0 ("b:") */
    BACTOOL_FIELD_BIT_STRING = 138,
    BACTOOL_FIELD_ENUMERATED = 139, /* an Enumerated ("e:") */
    BACTOOL_FIELD_DATE = 140, /* a Date: its four octets as contents ("D:") */
    BACTOOL_FIELD_TIME_OF_DAY = 141, /* a Time: its four octets as contents ("T:") */
    BACTOOL_FIELD_OBJECT_IDENTIFIER = 142, /* an object identifier, as its 32 bits ("id:") */
    /* a context primitive: the number of its tag, and its octets as contents ("[N]") */
    BACTOOL_FIELD_CONTEXT_PRIMITIVE = 143
};

/* A part of the text of a frame, and where its octets are in the canonical octets of the frame. */
struct bactool_field {
    uint32_t name;   /* an enum bactool_field_name */
    uint64_t number; /* the number that it has, or 0 if it has none */
    size_t place;    /* the offset of its first octet, counted from 0 */
    size_t head;     /* how many octets its head has, such as a tag */
    size_t length;   /* how many octets its contents have, after the head */
};

/*
 * An object identifier as its 32 bits, as OBJECT, DEVICE and OBJECT_IDENTIFIER have it, and its two halves. The type is
 * 0 to 1023, the instance 0 to 4194303.
 */
#define BACTOOL_OBJECT(type, instance) (BACTOOL_CAST(uint32_t, type) << 22 | BACTOOL_CAST(uint32_t, instance))
#define BACTOOL_OBJECT_TYPE(number) (BACTOOL_CAST(uint32_t, (number) >> 22) & 0x3FFu)
#define BACTOOL_OBJECT_INSTANCE(number) BACTOOL_CAST(uint32_t, (number) & 0x3FFFFFu)

/*
 * Checks whether octets are the canonical ones of a frame. It takes no memory.
 *
 *   BACTOOL_OK          they are the canonical ones
 *   BACTOOL_TOLERATED   they encode a frame otherwise: `place` is the offset of the first octet that differs from the
 *                       canonical ones. It is never returned if `strict` is true
 *   BACTOOL_REFUSED     no frame: `why`, and `place` is the offset of the first octet that no frame has there, or
 *                       `length` with BACTOOL_SHORT. If `strict` is true, octets that encode a frame otherwise are
 *                       refused too: `why` is BACTOOL_NOT_CANONICAL, and `place` is the offset of that first octet
 *
 *     struct bactool_outcome outcome;
 *     if (bactool_check(octets, length, false, &outcome) == BACTOOL_REFUSED)
 *         fprintf(stderr, "refused at %zu\n", outcome.place);
 */
uint32_t bactool_check(const uint8_t *octets, size_t length, bool strict, struct bactool_outcome *outcome);

/* How far the head of a frame is known. */
enum bactool_known {
    BACTOOL_KNOWN_NOTHING = 0,   /* version and control octet are not both there, or the version is not 1 */
    BACTOOL_KNOWN_CONTROL = 1,   /* `reply` and `priority` */
    BACTOOL_KNOWN_ADDRESSES = 2, /* also `destination`, `source` and `hops` */
    BACTOOL_KNOWN_ALL = 3        /* all that is before the octets of a service, or of a network message */
};

/* What a frame carries: the types of APDUs (clause 20.1), or a network message. */
enum bactool_pdu {
    BACTOOL_PDU_CONFIRMED = 0,
    BACTOOL_PDU_UNCONFIRMED = 1,
    BACTOOL_PDU_SIMPLE_ACK = 2,
    BACTOOL_PDU_COMPLEX_ACK = 3,
    BACTOOL_PDU_SEGMENT_ACK = 4,
    BACTOOL_PDU_ERROR = 5,
    BACTOOL_PDU_REJECT = 6,
    BACTOOL_PDU_ABORT = 7,
    BACTOOL_PDU_MESSAGE = 8 /* a network message */
};

/* Where a frame goes, or comes from. */
struct bactool_address {
    uint32_t there;   /* 1 if there is one. Otherwise this and the other members are 0 */
    uint32_t network; /* the network */
    size_t place;     /* the offset of the first octet of the address */
    size_t length;    /* how many octets the address has. A destination with none is every device on the network */
};

/* What is known of a frame. A member that is not known, or that the PDU does not have, is 0. */
struct bactool_frame_head {
    uint32_t known;                     /* an enum bactool_known: how far it is known */
    uint32_t reply;                     /* 1 if a reply is expected */
    uint32_t priority;                  /* the network priority, 0 to 3 */
    uint32_t hops;                      /* the hop count of the destination */
    struct bactool_address destination; /* where the frame goes, if that is on another network */
    struct bactool_address source;      /* where the frame comes from, if that is on another network */
    uint32_t pdu;                       /* an enum bactool_pdu. It has a meaning only with BACTOOL_KNOWN_ALL */
    uint32_t message;                   /* the type of a network message */
    uint32_t vendor;                    /* the vendor of a network message, if its type is 128 or above */
    uint32_t invoke;                    /* the invoke id, of all APDUs but an Unconfirmed-Request */
    uint32_t segmented;                 /* 1 if the APDU is a segment of a request or of an answer */
    uint32_t more;                      /* 1 if more segments follow */
    uint32_t sequence;                  /* the sequence number of a segment, or in a SegmentACK */
    uint32_t window;                    /* the window of a segment, or in a SegmentACK */
    uint32_t negative;                  /* 1 if a SegmentACK is negative */
    uint32_t server;                    /* 1 if a server sent a SegmentACK or an Abort */
    uint32_t choice;                    /* the service choice */
    uint32_t reason;                    /* the reason of a Reject or an Abort */
    size_t contents;                    /* the offset of what is after the head: the octets of a service begin here */
};

/*
 * Reports what is known of a frame, also if it is refused. A server needs it to answer a request that it does not
 * understand: the Reject or the Abort repeats the invoke id, and goes back to the source. What is known is so of every
 * frame that begins with the octets before `place`. All of `head` is written, whatever the code. The frame is checked as
 * by bactool_check, without memory.
 *
 *   BACTOOL_OK          the octets encode a frame: `known` is BACTOOL_KNOWN_ALL
 *   BACTOOL_REFUSED     no frame: `why`, and `place` is the offset of the first octet that no frame has there, or
 *                       `length` with BACTOOL_SHORT. `head` is what the octets before `place` say
 *
 *     struct bactool_frame_head head;
 *     if (bactool_head(octets, length, &head, &outcome) == BACTOOL_REFUSED
 *         && head.known == BACTOOL_KNOWN_ALL && head.pdu == BACTOOL_PDU_CONFIRMED)
 *         reject(head.invoke, octets + head.source.place, head.source.length);
 */
uint32_t bactool_head(const uint8_t *octets, size_t length, struct bactool_frame_head *head,
                      struct bactool_outcome *outcome);

/* What a piece of a frame is. bactool_piece_text says it in words. The numbers never change. */
enum bactool_piece_kind {
    BACTOOL_PIECE_VERSION = 1,             /* the version octet */
    BACTOOL_PIECE_CONTROL = 2,             /* the control octet (clause 6.2.2) */
    BACTOOL_PIECE_DESTINATION_NETWORK = 3, /* the network of the destination */
    BACTOOL_PIECE_DESTINATION_LENGTH = 4,  /* how many octets the address of the destination has */
    BACTOOL_PIECE_DESTINATION_ADDRESS = 5, /* the address of the destination */
    BACTOOL_PIECE_SOURCE_NETWORK = 6,      /* the network of the source */
    BACTOOL_PIECE_SOURCE_LENGTH = 7,       /* how many octets the address of the source has */
    BACTOOL_PIECE_SOURCE_ADDRESS = 8,      /* the address of the source */
    BACTOOL_PIECE_HOP_COUNT = 9,           /* the hop count of the destination */
    BACTOOL_PIECE_ADDRESSES = 10,          /* the first octets of addresses that are not whole */
    BACTOOL_PIECE_MESSAGE_TYPE = 11,       /* the type of a network message */
    BACTOOL_PIECE_VENDOR = 12,             /* the vendor of a network message */
    BACTOOL_PIECE_DATA = 13,               /* the data of a network message */
    /* The first octet of an APDU, by its type (clause 20.1). */
    BACTOOL_PIECE_CONFIRMED_REQUEST = 14,
    BACTOOL_PIECE_REQUEST_SEGMENT = 15, /* a segment of a Confirmed-Request */
    BACTOOL_PIECE_UNCONFIRMED_REQUEST = 16,
    BACTOOL_PIECE_SIMPLE_ACK = 17,
    BACTOOL_PIECE_COMPLEX_ACK = 18,
    BACTOOL_PIECE_ACK_SEGMENT = 19, /* a segment of a ComplexACK */
    BACTOOL_PIECE_SEGMENT_ACK = 20,
    BACTOOL_PIECE_ERROR = 21,
    BACTOOL_PIECE_REJECT = 22,
    BACTOOL_PIECE_ABORT = 23,
    BACTOOL_PIECE_ACCEPTED = 24,  /* how long an answer is accepted, in segments and in octets */
    BACTOOL_PIECE_INVOKE_ID = 25, /* the invoke id */
    BACTOOL_PIECE_SEQUENCE = 26,  /* the sequence number of a segment */
    BACTOOL_PIECE_WINDOW = 27,    /* the window of segments */
    BACTOOL_PIECE_CHOICE = 28,    /* the service choice */
    BACTOOL_PIECE_REASON = 29,    /* the reason of a Reject or an Abort */
    BACTOOL_PIECE_PDU_HEAD = 30,  /* the first octets of a head of an APDU or of a network message that is not whole */
    BACTOOL_PIECE_ELEMENT = 31,   /* a tag head and its contents */
    BACTOOL_PIECE_UNJUDGED = 32,  /* the same in a service that is not decoded field by field */
    BACTOOL_PIECE_SEGMENT = 33,   /* the octets of a segment */
    BACTOOL_PIECE_OCTETS = 34,    /* other octets: of a service that is not decoded, or the first ones of a tag head */
    BACTOOL_PIECE_REFUSED = 35,   /* the octet at the place of a refusal, or no octet with BACTOOL_SHORT */
    BACTOOL_PIECE_REST = 36       /* the octets after the place of a refusal, which are not read */
};

/* The tag of a piece (clause 20.2.1). */
enum bactool_piece_tag {
    BACTOOL_TAG_APPLICATION = 1, /* an application tag: `number` is the type of its value */
    BACTOOL_TAG_CONTEXT = 2,     /* a context tag */
    BACTOOL_TAG_OPENING = 3,     /* a group begins */
    BACTOOL_TAG_CLOSING = 4      /* a group ends */
};

/* A piece of the octets of a frame. */
struct bactool_piece {
    size_t place;    /* the offset of its first octet, counted from 0 */
    size_t length;   /* how many octets it has */
    size_t head;     /* how many of them are a tag head */
    size_t depth;    /* how many groups are open around it */
    uint32_t kind;   /* an enum bactool_piece_kind */
    uint32_t tag;    /* an enum bactool_piece_tag, of BACTOOL_PIECE_ELEMENT and BACTOOL_PIECE_UNJUDGED, and else 0 */
    uint32_t number; /* the number of the tag; of BACTOOL_PIECE_REFUSED the reason, an enum bactool_why; and else 0 */
};

/*
 * Says what each octet of a frame is, also if it is refused: cuts the octets into pieces, as `bactool explain` prints
 * them, but that all data of a network message is one. The pieces are in order: the first one begins at 0, each other
 * one where the one before it ends, and the last one ends with the octets. If the octets are refused, the pieces before
 * `place` are those of a frame that begins so, the octet at `place` is one piece, BACTOOL_PIECE_REFUSED, and those
 * after it are one, BACTOOL_PIECE_REST. The first `most` pieces are written at the front of `pieces`. There are at most
 * `length` + 1, which is always enough.
 *
 *   BACTOOL_OK          the octets are the canonical ones of a frame: `fields` is the number of all their pieces
 *   BACTOOL_TOLERATED   they encode a frame otherwise: `fields` too, and `place` is the offset of the first octet that
 *                       differs from the canonical ones
 *   BACTOOL_REFUSED     no frame: `fields` too, `why`, and `place` is the offset of the first octet that no frame has
 *                       there, or `length` with BACTOOL_SHORT
 *   BACTOOL_NO_MEMORY   memory was refused: no piece is written
 *
 *     struct bactool_piece pieces[1498];
 *     char words[256];
 *     if (bactool_explain(octets, length, pieces, 1498, &outcome) != BACTOOL_NO_MEMORY) {
 *         size_t count = outcome.fields < 1498 ? outcome.fields : 1498;
 *         for (size_t i = 0; i < count; i++)
 *             if (bactool_piece_text(&pieces[i], octets, length, words, sizeof words, &outcome) == BACTOOL_OK)
 *                 printf("%4zu %.*s\n", pieces[i].place, (int)outcome.count, words);
 *     }
 */
uint32_t bactool_explain(const uint8_t *octets, size_t length, struct bactool_piece *pieces, size_t most,
                         struct bactool_outcome *outcome);

/*
 * Writes, at the front of `out`, the words of a piece that bactool_explain wrote of these octets, as `bactool explain`
 * prints them where it has no name of a field. To learn their length first, call with room 0.
 *
 *   BACTOOL_OK          they are written: `count` is the number of their octets
 *   BACTOOL_NO_ROOM     `room` is too small for them: nothing is written, and `count` is the number of their octets
 *   BACTOOL_REFUSED     the piece is not one of these octets
 *   BACTOOL_NO_MEMORY   memory was refused
 */
uint32_t bactool_piece_text(const struct bactool_piece *piece, const uint8_t *octets, size_t length, char *out,
                            size_t room, struct bactool_outcome *outcome);

/*
 * Writes, at the front of `out`, the lines that `bactool explain` prints of a record with these octets, after its first
 * one: what each octet is, with the names of fields, also if the octets are refused. Each line ends in a line feed. If
 * `room` is too small for all of them, nothing is written. To learn their length first, call with room 0.
 *
 *   BACTOOL_OK          the octets are the canonical ones of a frame: `count` is the number of octets of the lines
 *   BACTOOL_TOLERATED   they encode a frame otherwise: `count` too, and `place` is the offset of the first octet that
 *                       differs from the canonical ones
 *   BACTOOL_REFUSED     no frame: `count` too, `why`, and `place` is the offset of the first octet that no frame has
 *                       there, or `length` with BACTOOL_SHORT
 *   BACTOOL_NO_MEMORY   memory was refused: nothing is written
 *
 *     char lines[4096];
 *     if (bactool_explain_text(octets, length, lines, sizeof lines, &outcome) != BACTOOL_NO_MEMORY
 *         && outcome.count <= sizeof lines)
 *         fwrite(lines, 1, outcome.count, stdout);
 */
uint32_t bactool_explain_text(const uint8_t *octets, size_t length, char *out, size_t room,
                              struct bactool_outcome *outcome);

/*
 * Writes, at the front of `out`, the canonical octets of the frame that the octets encode. There are at most as many of
 * them as octets passed, so a room of `length` is always enough.
 *
 *   BACTOOL_OK          they are written: `count` is their number
 *   BACTOOL_NO_ROOM     `room` is too small for them: nothing is written, and `count` is their number
 *   BACTOOL_REFUSED     no frame: `why`, and `place` is the offset of the first octet that no frame has there, or
 *                       `length` with BACTOOL_SHORT
 *   BACTOOL_NO_MEMORY   memory was refused
 *
 *     uint8_t canonical[1497];
 *     if (bactool_normalise(octets, length, canonical, sizeof canonical, &outcome) == BACTOOL_OK)
 *         send(socket, canonical, outcome.count, 0);
 */
uint32_t bactool_normalise(const uint8_t *octets, size_t length, uint8_t *out, size_t room,
                           struct bactool_outcome *outcome);

/*
 * How many fields a frame of `length` octets has at most. Most fields have an octet of their own or more; up to three
 * share an octet of a head, and where an item begins or ends there is none. It is proved that a frame has at most two
 * fields for each of its canonical octets, and two more. Canonical octets are never more than other octets that encode
 * the frame, so the number holds for these too.
 */
#define BACTOOL_MOST_FIELDS(length) (2 * (length) + 2)

/*
 * Writes, at the front of `out`, the canonical octets of the frame that the octets encode, as bactool_normalise does,
 * and at the front of `fields` its fields, in the order of its text. Each field has its number, and contents such as a
 * string are in `out`, after the head of their field. A room of `length`, and a `most` of BACTOOL_MOST_FIELDS(length),
 * are always enough, and with them it is fastest. To learn how many are needed, call with room 0 and `most` 0.
 *
 *   BACTOOL_OK          both are written: `count` octets and `fields` fields
 *   BACTOOL_NO_ROOM     `room` or `most` is too small: nothing is written, and `count` and `fields` are what is needed
 *   BACTOOL_REFUSED     no frame: `why`, and `place` is the offset of the first octet that no frame has there, or
 *                       `length` with BACTOOL_SHORT
 *   BACTOOL_NO_MEMORY   memory was refused
 *
 *     uint8_t canonical[1497];
 *     static struct bactool_field fields[BACTOOL_MOST_FIELDS(1497)];
 *     if (bactool_decode(octets, length, canonical, sizeof canonical, fields, BACTOOL_MOST_FIELDS(1497), &outcome)
 *         == BACTOOL_OK) {
 *         const struct bactool_field *object = bactool_find(fields, outcome.fields, BACTOOL_FIELD_OBJECT);
 *         if (object != NULL)
 *             printf("object %" PRIu32 ":%" PRIu32 "\n", BACTOOL_OBJECT_TYPE(object->number),
 *                    BACTOOL_OBJECT_INSTANCE(object->number));
 *     }
 */
uint32_t bactool_decode(const uint8_t *octets, size_t length, uint8_t *out, size_t room, struct bactool_field *fields,
                        size_t most, struct bactool_outcome *outcome);

/* Returns the first of `count` fields with this name, or NULL. */
static inline const struct bactool_field *bactool_find(const struct bactool_field *fields, size_t count,
                                                       enum bactool_field_name name)
{
    for (size_t i = 0; i < count; i++)
        if (fields[i].name == BACTOOL_CAST(uint32_t, name))
            return &fields[i];
    return NULL;
}

/*
 * Writes, at the front of `out`, the canonical octets of the frame that `count` fields say: the way back from
 * bactool_decode. The fields come in the order of the text, and each has its name and its number. If its name has
 * contents, these are `length` octets of `octets`, from `place` + `head` on. In any other field `place`, `head` and
 * `length` do not matter. So the fields and the octets that bactool_decode writes yield the same octets again, and a
 * field that a program makes may have 0 there.
 *
 *   BACTOOL_OK          they are written: `count` is their number
 *   BACTOOL_NO_ROOM     `room` is too small for them: nothing is written, and `count` is their number
 *   BACTOOL_REFUSED     the fields are those of no frame: `place` is the index of the first field with which no frame's
 *                       fields continue, and `why` is what is wrong with it: BACTOOL_BAD_NAME, BACTOOL_BAD_NUMBER or
 *                       BACTOOL_BAD_CONTENTS, or BACTOOL_TRAILING if the fields before it are already all of a frame
 *                       and no frame continues with a field of this name.
 *                       If the fields end too early, `place` is `count`, and `why` is BACTOOL_SHORT
 *   BACTOOL_NO_MEMORY   memory was refused
 *
 *     #define SAY(name, number) {BACTOOL_FIELD_##name, number, 0, 0, 0}
 *
 *     const struct bactool_field request[] = {
 *         SAY(NETWORK_PRIORITY, 0), SAY(REPLY_EXPECTED, 1), SAY(CONFIRMED_REQUEST, 0), SAY(INVOKE_ID, 1),
 *         SAY(SEGMENTED_ACCEPTED, 0), SAY(MAX_SEGMENTS, 0), SAY(MAX_RESPONSE, 5), SAY(READ_PROPERTY, 12),
 *         SAY(OBJECT, BACTOOL_OBJECT(0, 5)), SAY(PROPERTY, 85),
 *     };
 *     uint8_t out[1497];
 *     if (bactool_encode(request, 10, NULL, 0, out, sizeof out, &outcome) == BACTOOL_OK)
 *         send(socket, out, outcome.count, 0);
 *
 * sends 01 04 00 05 01 0C 0C 00 00 00 05 19 55, which asks for the present value (85) of analog input 5. These fields
 * answer it with the Real 72.3:
 *
 *     const struct bactool_field answer[] = {
 *         SAY(NETWORK_PRIORITY, 0), SAY(REPLY_EXPECTED, 0), SAY(COMPLEX_ACK, 0), SAY(INVOKE_ID, 1),
 *         SAY(READ_PROPERTY, 12), SAY(OBJECT, BACTOOL_OBJECT(0, 5)), SAY(PROPERTY, 85), SAY(VALUE, 0),
 *         SAY(REAL, 0x4290999A), SAY(VALUE_END, 0),
 *     };
 *
 * An answer to ReadPropertyMultiple has a list of objects, each with a list of results. Each list and each item begins
 * and ends with a field. Here property 85 of analog input 33 has a value, and property 103 has an error, class 2 and
 * code 32:
 *
 *     const struct bactool_field results[] = {
 *         SAY(NETWORK_PRIORITY, 0), SAY(REPLY_EXPECTED, 0), SAY(COMPLEX_ACK, 0), SAY(INVOKE_ID, 241),
 *         SAY(READ_PROPERTY_MULTIPLE, 14),
 *         SAY(RESULTS, 0),
 *             SAY(ITEM, 0), SAY(OBJECT, BACTOOL_OBJECT(0, 33)),
 *                 SAY(RESULTS, 0),
 *                     SAY(ITEM, 0), SAY(PROPERTY, 85),
 *                         SAY(VALUE, 0), SAY(REAL, 0x4290999A), SAY(VALUE_END, 0),
 *                     SAY(ITEM_END, 0),
 *                     SAY(ITEM, 0), SAY(PROPERTY, 103),
 *                         SAY(PROPERTY_ERROR, 0), SAY(ERROR_CLASS, 2), SAY(ERROR_CODE, 32), SAY(PROPERTY_ERROR_END, 0),
 *                     SAY(ITEM_END, 0),
 *                 SAY(LIST_END, 0),
 *             SAY(ITEM_END, 0),
 *         SAY(LIST_END, 0),
 *     };
 *
 * A WriteProperty that was read is written with another priority:
 *
 *     uint8_t canonical[1497];
 *     static struct bactool_field fields[BACTOOL_MOST_FIELDS(1497)];
 *     if (bactool_decode(octets, length, canonical, sizeof canonical, fields, BACTOOL_MOST_FIELDS(1497), &outcome)
 *         == BACTOOL_OK) {
 *         for (size_t i = 0; i < outcome.fields; i++)
 *             if (fields[i].name == BACTOOL_FIELD_PRIORITY)
 *                 fields[i].number = 9;
 *         bactool_encode(fields, outcome.fields, canonical, outcome.count, out, sizeof out, &outcome);
 *     }
 *
 * bactool_helpers.h makes such fields with less writing. `examples/c/fields.c` is a whole program.
 */
uint32_t bactool_encode(const struct bactool_field *fields, size_t count, const uint8_t *octets, size_t length,
                        uint8_t *out, size_t room, struct bactool_outcome *outcome);

/*
 * Writes, at the front of `out`, the text of the frame that the octets encode, as `bactool show` prints it: one line,
 * without a line feed and without a NUL. To learn its length first, call with room 0.
 *
 *   BACTOOL_OK          the text is written: `count` is the number of its octets
 *   BACTOOL_NO_ROOM     `room` is too small for the text: nothing is written, and `count` is the number of its octets
 *   BACTOOL_REFUSED     no frame: `why`, and `place` is the offset of the first octet that no frame has there, or
 *                       `length` with BACTOOL_SHORT
 *   BACTOOL_NO_MEMORY   memory was refused
 *
 *     if (bactool_show(octets, length, NULL, 0, &outcome) == BACTOOL_NO_ROOM) {
 *         char *line = malloc(outcome.count);
 *         if (line != NULL && bactool_show(octets, length, line, outcome.count, &outcome) == BACTOOL_OK)
 *             fwrite(line, 1, outcome.count, stdout);
 *         free(line);
 *     }
 */
uint32_t bactool_show(const uint8_t *octets, size_t length, char *out, size_t room, struct bactool_outcome *outcome);

/*
 * Writes, at the front of `out`, the canonical octets of the frame that has this text: the way back from bactool_show.
 * A text is accepted exactly as bactool_show writes it, with the same blanks, digits and letters, without a line feed
 * and without a NUL. To learn how many octets there are, call with room 0.
 *
 *   BACTOOL_OK          they are written: `count` is their number
 *   BACTOOL_NO_ROOM     `room` is too small for them: nothing is written, and `count` is their number
 *   BACTOOL_REFUSED     no frame has this text: `why` is BACTOOL_BAD_TEXT, and `place` is the offset in the text of the
 *                       first octet that no frame's text has there; or `why` is BACTOOL_SHORT, and `place` is `length`
 *   BACTOOL_NO_MEMORY   memory was refused
 *
 *     const char text[] = "prio=0 reply=0 unconf Who-Is";
 *     uint8_t out[1497];
 *     if (bactool_read(text, strlen(text), out, sizeof out, &outcome) == BACTOOL_OK)
 *         send(socket, out, outcome.count, 0);
 */
uint32_t bactool_read(const char *text, size_t length, uint8_t *out, size_t room, struct bactool_outcome *outcome);

/*
 * Cuts a message into segments (clause 5.2). The octets encode a frame with a Confirmed-Request or a ComplexACK in one
 * piece. Written at the front of `out` are the frames of its segments in their order, each as a record: two octets of
 * length, the high one first, and the canonical octets of the frame. Each segment has the heads of the whole frame, and
 * `size` octets of its service; the last one has 1 to `size`, and the one of a service without octets has none. Each
 * says that `window` segments are sent before a SegmentACK is awaited. To learn how many octets there are, call with
 * room 0.
 *
 *   BACTOOL_OK          they are written: `count` is the number of their octets
 *   BACTOOL_NO_ROOM     `room` is too small for them: nothing is written, and `count` is the number of their octets
 *   BACTOOL_REFUSED     no frame: `why`, and `place` is the offset of the first octet that no frame has there, or
 *                       `length` with BACTOOL_SHORT
 *   BACTOOL_NO_SERVICE  the frame has a network message, a segment or another APDU
 *   BACTOOL_BAD_SIZE    `size` is 0
 *   BACTOOL_BAD_WINDOW  `window` is not 1 to 127
 *   BACTOOL_TOO_LONG    the service, or the frame of a segment, has more than 65,535 octets
 *   BACTOOL_TOO_MANY    there would be more than 256 segments
 *   BACTOOL_NO_MEMORY   memory was refused
 *
 * Of several reasons not to cut, the first in this order is returned, but that the frame of a segment is too long comes
 * after BACTOOL_TOO_MANY.
 *
 *     static uint8_t records[1 << 17];
 *     if (bactool_cut(octets, length, 480, 4, records, sizeof records, &outcome) == BACTOOL_OK)
 *         for (size_t at = 0; at < outcome.count; at += 2 + ((size_t)records[at] << 8 | records[at + 1]))
 *             send(socket, records + at + 2, (size_t)records[at] << 8 | records[at + 1], 0);
 */
uint32_t bactool_cut(const uint8_t *octets, size_t length, size_t size, uint8_t window, uint8_t *out, size_t room,
                     struct bactool_outcome *outcome);

/*
 * Joins the segments of one message (clause 5.2): the way back from bactool_cut. The octets are records of frames, each
 * two octets of length, the high one first, and as many octets. The frames may be in any encoding and in any order, and
 * any of them may be there several times. Written at the front of `out` are the canonical octets of the frame in one
 * piece, which has the heads of the segments. There are fewer of them than octets passed, so a room of `length` is
 * enough: this is tested, not proved. The windows of the segments do not matter. To wait for segments, keep the
 * records, and call again when another one has come, as `examples/c/join.c` does. Records are counted from 0.
 *
 * The call takes about as much memory as the octets to be written, and one segment is decoded at a time. If the joined
 * octets of the service are not canonical, it takes several times as much. This is tested, not proved.
 *
 *   BACTOOL_OK               they are written: `count` is their number
 *   BACTOOL_NO_ROOM          `room` is too small for them: nothing is written, and `count` is their number
 *   BACTOOL_TRUNCATED        the octets end within the record with the index `place`
 *   BACTOOL_REFUSED          the record with the index `count` is no frame: `why`, and `place` is the offset in its
 *                            octets of the first one that no frame has there, or their number with BACTOOL_SHORT
 *   BACTOOL_NO_SEGMENT       the record with the index `place` holds no segment
 *   BACTOOL_CONFLICT         the record with the index `place` is not of the message of those before it: its heads are
 *                            others, it has another piece for the same number, or it is after the last segment
 *   BACTOOL_TOO_LONG         with the piece of the record with the index `place` the service has more than 65,535
 *                            octets
 *   BACTOOL_INCOMPLETE       segments are missing: `place` is the first number that is missing, 0 if there is no record
 *   BACTOOL_SERVICE_REFUSED  the segments are all there, and their joined octets are no service of their kind and
 *                            choice: `why`, and `place` is the offset in them of the first octet that no such service
 *                            has there, or their number with BACTOOL_SHORT
 *   BACTOOL_NO_MEMORY        memory was refused
 *
 * The first record that is truncated or refused comes before the others, and then the first one that does not belong.
 *
 *     uint32_t code = bactool_join(records, length, whole, sizeof whole, &outcome);
 *     if (code == BACTOOL_OK)
 *         handle(whole, outcome.count);
 *     else if (code == BACTOOL_INCOMPLETE)
 *         printf("segment %zu is missing\n", outcome.place);
 */
uint32_t bactool_join(const uint8_t *records, size_t length, uint8_t *out, size_t room,
                      struct bactool_outcome *outcome);

/*
 * Compares the frames that two inputs encode, each in any encoding. The inputs may be the same memory.
 *
 *   BACTOOL_OK             both inputs encode the same frame
 *   BACTOOL_DIFFERENT      they encode different frames
 *   BACTOOL_LEFT_REFUSED   the left input encodes no frame: `why`, and `place` is the offset in the left input of the
 *                          first octet that no frame has there, or `left_length` with BACTOOL_SHORT
 *   BACTOOL_RIGHT_REFUSED  the left input encodes a frame and the right one does not: `why`, and `place` is the offset
 *                          in the right input of the first octet that no frame has there, or `right_length` with
 *                          BACTOOL_SHORT
 *   BACTOOL_NO_MEMORY      memory was refused
 *
 *     bool same = bactool_same_meaning(sent, sent_length, seen, seen_length, &outcome) == BACTOOL_OK;
 */
uint32_t bactool_same_meaning(const uint8_t *left, size_t left_length, const uint8_t *right, size_t right_length,
                              struct bactool_outcome *outcome);

/*
 * Writes the name of the reason with the number `why`, such as "Short", at the front of `out`, if `room` is at least
 * the length of the name. A room of 16 is enough for each name. Returns the length of the name, even if nothing is
 * written, or 0 if no reason has the number.
 *
 *     char name[16];
 *     printf("%.*s at %zu\n", (int)bactool_reason(outcome.why, name, sizeof name), name, outcome.place);
 */
size_t bactool_reason(uint32_t why, char *out, size_t room);

/*
 * Writes the word of the field name with the number `name`, such as "object", at the front of `out`, if `room` is at
 * least its length. The text of a frame has this word before the `=`, `(`, `{` or `:` of the field. A field without a
 * word there has one that describes it, such as "end". A room of 32 is enough for each word. Returns the length of the
 * word, even if nothing is written, or 0 if no name has the number.
 *
 *     char word[32];
 *     printf("%.*s\n", (int)bactool_name(fields[0].name, word, sizeof word), word);
 */
size_t bactool_name(uint32_t name, char *out, size_t room);

/* Returns the version of the library as a number, by the same rule as BACTOOL_VERSION. */
uint32_t bactool_version(void);

/*
 * The library itself needs an address even if there are no octets. These functions replace NULL by one. Macros with the
 * names of the calls use them, and take any expression as an argument, a compound literal too. A call through a
 * function pointer, or from another language, does not use them, and must pass some address in place of NULL.
 */
static inline const uint8_t *bactool_octets(const uint8_t *octets)
{
    static const uint8_t none = 0;
    return octets != NULL ? octets : &none;
}

static inline uint8_t *bactool_room(uint8_t *out)
{
    static uint8_t none = 0;
    return out != NULL ? out : &none;
}

static inline char *bactool_text(char *out)
{
    static char none = 0;
    return out != NULL ? out : &none;
}

static inline struct bactool_field *bactool_fields(struct bactool_field *fields)
{
    static struct bactool_field none;
    return fields != NULL ? fields : &none;
}

static inline const struct bactool_field *bactool_said(const struct bactool_field *fields)
{
    static const struct bactool_field none = {0, 0, 0, 0, 0};
    return fields != NULL ? fields : &none;
}

static inline struct bactool_piece *bactool_pieces(struct bactool_piece *pieces)
{
    static struct bactool_piece none;
    return pieces != NULL ? pieces : &none;
}

static inline uint32_t bactool_check_any(const uint8_t *octets, size_t length, bool strict,
                                         struct bactool_outcome *outcome)
{
    return bactool_check(bactool_octets(octets), length, strict, outcome);
}

static inline uint32_t bactool_head_any(const uint8_t *octets, size_t length, struct bactool_frame_head *head,
                                        struct bactool_outcome *outcome)
{
    return bactool_head(bactool_octets(octets), length, head, outcome);
}

static inline uint32_t bactool_explain_any(const uint8_t *octets, size_t length, struct bactool_piece *pieces,
                                           size_t most, struct bactool_outcome *outcome)
{
    return bactool_explain(bactool_octets(octets), length, bactool_pieces(pieces), most, outcome);
}

static inline uint32_t bactool_piece_text_any(const struct bactool_piece *piece, const uint8_t *octets, size_t length,
                                              char *out, size_t room, struct bactool_outcome *outcome)
{
    return bactool_piece_text(piece, bactool_octets(octets), length, bactool_text(out), room, outcome);
}

static inline uint32_t bactool_explain_text_any(const uint8_t *octets, size_t length, char *out, size_t room,
                                                struct bactool_outcome *outcome)
{
    return bactool_explain_text(bactool_octets(octets), length, bactool_text(out), room, outcome);
}

static inline uint32_t bactool_normalise_any(const uint8_t *octets, size_t length, uint8_t *out, size_t room,
                                             struct bactool_outcome *outcome)
{
    return bactool_normalise(bactool_octets(octets), length, bactool_room(out), room, outcome);
}

static inline uint32_t bactool_decode_any(const uint8_t *octets, size_t length, uint8_t *out, size_t room,
                                          struct bactool_field *fields, size_t most, struct bactool_outcome *outcome)
{
    return bactool_decode(bactool_octets(octets), length, bactool_room(out), room, bactool_fields(fields), most,
                          outcome);
}

static inline uint32_t bactool_encode_any(const struct bactool_field *fields, size_t count, const uint8_t *octets,
                                          size_t length, uint8_t *out, size_t room, struct bactool_outcome *outcome)
{
    return bactool_encode(bactool_said(fields), count, bactool_octets(octets), length, bactool_room(out), room,
                          outcome);
}

static inline uint32_t bactool_show_any(const uint8_t *octets, size_t length, char *out, size_t room,
                                        struct bactool_outcome *outcome)
{
    return bactool_show(bactool_octets(octets), length, bactool_text(out), room, outcome);
}

static inline uint32_t bactool_read_any(const char *text, size_t length, uint8_t *out, size_t room,
                                        struct bactool_outcome *outcome)
{
    return bactool_read(text != NULL ? text : bactool_text(NULL), length, bactool_room(out), room, outcome);
}

static inline uint32_t bactool_cut_any(const uint8_t *octets, size_t length, size_t size, uint8_t window, uint8_t *out,
                                       size_t room, struct bactool_outcome *outcome)
{
    return bactool_cut(bactool_octets(octets), length, size, window, bactool_room(out), room, outcome);
}

static inline uint32_t bactool_join_any(const uint8_t *records, size_t length, uint8_t *out, size_t room,
                                        struct bactool_outcome *outcome)
{
    return bactool_join(bactool_octets(records), length, bactool_room(out), room, outcome);
}

static inline uint32_t bactool_same_meaning_any(const uint8_t *left, size_t left_length, const uint8_t *right,
                                                size_t right_length, struct bactool_outcome *outcome)
{
    return bactool_same_meaning(bactool_octets(left), left_length, bactool_octets(right), right_length, outcome);
}

static inline size_t bactool_reason_any(uint32_t why, char *out, size_t room)
{
    return bactool_reason(why, bactool_text(out), room);
}

static inline size_t bactool_name_any(uint32_t name, char *out, size_t room)
{
    return bactool_name(name, bactool_text(out), room);
}

#define bactool_check(...) bactool_check_any(__VA_ARGS__)
#define bactool_head(...) bactool_head_any(__VA_ARGS__)
#define bactool_explain(...) bactool_explain_any(__VA_ARGS__)
#define bactool_piece_text(...) bactool_piece_text_any(__VA_ARGS__)
#define bactool_explain_text(...) bactool_explain_text_any(__VA_ARGS__)
#define bactool_normalise(...) bactool_normalise_any(__VA_ARGS__)
#define bactool_decode(...) bactool_decode_any(__VA_ARGS__)
#define bactool_encode(...) bactool_encode_any(__VA_ARGS__)
#define bactool_show(...) bactool_show_any(__VA_ARGS__)
#define bactool_read(...) bactool_read_any(__VA_ARGS__)
#define bactool_cut(...) bactool_cut_any(__VA_ARGS__)
#define bactool_join(...) bactool_join_any(__VA_ARGS__)
#define bactool_same_meaning(...) bactool_same_meaning_any(__VA_ARGS__)
#define bactool_reason(...) bactool_reason_any(__VA_ARGS__)
#define bactool_name(...) bactool_name_any(__VA_ARGS__)

#ifdef __cplusplus
}
#endif

#endif
