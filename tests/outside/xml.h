/* The reader of XML that drawings and logs share. */
#ifndef XML_H
#define XML_H

#include <stdbool.h>
#include <stddef.h>
#include <stdint.h>

/* a text's length; how deep what is skipped may go; attributes of one tag, five bytes each */
enum { XML_MOST = 65536, DEEPEST = 16, ATTRIBUTES = 14000 };

struct span { size_t from, to; bool there; };
struct attribute { struct span name, value; };

/* at: how far it is read; place: the first fault, where a call came back false; first: where a declaration may stand */
struct xml {
    const uint8_t *s;
    size_t n, at, place, first;
    unsigned attribute_count;
    struct attribute attributes[ATTRIBUTES];
};

enum opening { CUT_OFF, WRONG, COMMENT, CDATA, INSTRUCTION, START_TAG, END_TAG };

/* of an attribute that is whole */
typedef bool (*attribute_judge)(struct xml *w, const struct attribute *a);

/* takes a text up, and passes over its byte order mark */
bool begun(struct xml *w, const uint8_t *s, size_t n);
/* what stands before the root, up to its tag, or, where root is NULL, behind it, up to the end */
bool around(struct xml *w, const char *root, struct span *name);
/* what stands at a `<`: a token that the end cuts off is not judged */
enum opening opening_at(const struct xml *w, size_t at, struct span *name);
/* the first byte that continues no opening at a `<` */
size_t stop_of(const struct xml *w, size_t at);
/* up to the bytes that close a comment, instruction or CDATA section */
bool until(struct xml *w, size_t at, const char *close);
bool instruction(struct xml *w, struct span target);
/* a start tag behind its name: its attributes, and whether it is empty */
bool tag(struct xml *w, size_t from, attribute_judge judge, bool *empty);
bool end_tag(struct xml *w, struct span begun, struct span name);
/* a reference from its `&` on, and the character it stands for; what the end cuts off is not judged, whether or not it could become a right one */
bool reference(struct xml *w, size_t at, uint32_t *code);
/* what is wrong where only markup may stand: a reference too, but for one that runs up to the end */
bool no_markup(struct xml *w, size_t at);

/* a fault at a place; at the end; at a token, or at the byte that does not continue it where that is below 32 */
bool fault(struct xml *w, size_t place);
bool cut(struct xml *w);
bool broken(struct xml *w, size_t at, size_t k);

bool is_control(uint8_t b);
bool is_digit(uint8_t b);
size_t over_blanks(const struct xml *w, size_t at);
/* a byte below 32, or `]]>`: no character data */
bool ends_text(const struct xml *w, size_t at);
bool is(const struct xml *w, struct span x, const char *word);
bool equal(const struct xml *w, struct span x, struct span y);
/* what stands behind the last colon */
struct span behind_colon(const struct xml *w, struct span x);
/* the value of an attribute of the last tag */
struct span value_of(const struct xml *w, const char *name);

#endif
