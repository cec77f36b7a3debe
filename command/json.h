/* json.h: answers for machines, in ASCII alone: one object a run, ended by a line feed. The man page has the schema. */
#ifndef JSON_H
#define JSON_H

#include "accept.h"
#include "causes.h"
#include "warnings.h"

/* A string where the bytes are well-formed UTF-8, else {"bytes":"c3ff"}. */
void json_text(FILE *to, struct text t);
void json_string(FILE *to, const char *s);

/* ,"NAME":TEXT */
void json_member(FILE *to, const char *name, struct text t);
/* ,"NAME":STRING, for people: a byte that is no UTF-8 is shown by number, like \xff */
void json_words(FILE *to, const char *name, const struct words *w);

/* {"path":TEXT,"all_but":BOOLEAN,"methods":[TEXT..],"anyone":BOOLEAN,"roles":[TEXT..]} */
void json_fold(FILE *to, struct text path, const struct trials *t, const struct fold *f, const struct text role[]);

/* "refused":{"number":N,"side":N,"line":N,"listing":TEXT or null,"cause":STRING} */
void json_refusal(FILE *to, const struct refusal *r);

/* {"line":N,"about":STRING,"text":STRING} */
void json_warning(FILE *to, const struct warning *w);

#endif
