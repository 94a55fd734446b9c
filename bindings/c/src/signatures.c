/* Type signatures: see signatures.h. */
#include "signatures.h"

#include <stdint.h>
#include <stdlib.h>

void release_signature(struct signature *signature) {
    if (signature == NULL || --signature->uses > 0) return;
    for (size_t i = 0; i < signature->count; i++) release_signature(signature->parts[i].body);
    free(signature->parts);
    free(signature);
}

/* Makes the signature the caller's own, with room for another part; false where there is no memory. */
static bool own_signature(struct signature **made, size_t *room) {
    struct signature *old = *made, *own;
    if (*room != 0) return true;
    if ((own = malloc(sizeof *own)) == NULL) return false;
    *own = old == NULL ? (struct signature){.uses = 1} : *old;
    own->uses = 1;
    own->parts = malloc((own->count + 1) * sizeof *own->parts);
    if (own->parts == NULL) {
        free(own);
        return false;
    }
    for (size_t i = 0; i < own->count; i++) {
        own->parts[i] = old->parts[i];
        if (own->parts[i].body != NULL) own->parts[i].body->uses++;
    }
    release_signature(old);
    *made = own;
    *room = own->count + 1;
    return true;
}

/* Puts a part behind the others; false where there is no memory. */
static bool append_part(struct signature **made, size_t *room, struct signature_part next) {
    if (!own_signature(made, room)) return false;
    struct signature *own = *made;
    struct signature_part *last = own->count == 0 ? NULL : &own->parts[own->count - 1];
    if (last != NULL && last->element == next.element && last->body == next.body) {
        last->count += next.count;
        return true;
    }
    if (own->count == *room) {
        if (*room > SIZE_MAX / 2 / sizeof next) return false;
        struct signature_part *more = realloc(own->parts, 2 * *room * sizeof next);
        if (more == NULL) return false;
        own->parts = more;
        *room *= 2;
    }
    if (next.body != NULL) next.body->uses++;
    own->parts[own->count++] = next;
    return true;
}

/* Puts the parts of so many copies behind the others. The first item has its signature alone, until others come. */
static bool append_parts(struct signature **made, size_t *room, struct signature *item, size_t count) {
    if (item->count == 1) {
        struct signature_part only = item->parts[0];
        only.count *= count;
        return append_part(made, room, only);
    }
    if (count > 1) return append_part(made, room, (struct signature_part){count, NULL, item});
    for (size_t i = 0; i < item->count; i++)
        if (!append_part(made, room, item->parts[i])) return false;
    return true;
}

bool add_signature(struct signature **made, size_t *room, struct signature *item, size_t count) {
    if (item == NULL || count == 0) return true;
    if (*made == NULL && count == 1) {
        item->uses++;
        *made = item;
        return true;
    }
    if (!append_parts(made, room, item, count)) return false;
    (*made)->size += count * item->size;
    (*made)->elements += count * item->elements;
    (*made)->external += count * item->external;
    return true;
}

ptrdiff_t elements_in(const struct signature *signature, size_t bytes) {
    if (bytes == 0) return 0;
    if (signature == NULL) return -1;
    size_t elements = 0;
    for (;;) {
        elements += bytes / signature->size * signature->elements;
        bytes %= signature->size;
        if (bytes == 0) return (ptrdiff_t)elements;
        /* The part in which they end. */
        const struct signature_part *part = signature->parts;
        for (;; part++) {
            size_t size = part->count * (part->body != NULL ? part->body->size : part->element->size);
            if (bytes < size) break;
            bytes -= size;
            elements += part->count * (part->body != NULL ? part->body->elements : 1);
        }
        if (bytes == 0) return (ptrdiff_t)elements;
        if (part->body == NULL)
            return bytes % part->element->size == 0 ? (ptrdiff_t)(elements + bytes / part->element->size) : -1;
        signature = part->body;
    }
}

/* The bytes of the first elements of an item, of which there are more. */
static size_t bytes_within(const struct signature *signature, size_t elements) {
    size_t bytes = 0;
    for (;;) {
        bytes += elements / signature->elements * signature->size;
        elements %= signature->elements;
        const struct signature_part *part = signature->parts;
        for (; elements != 0; part++) {
            size_t all = part->count * (part->body != NULL ? part->body->elements : 1);
            if (elements < all) break;
            elements -= all;
            bytes += part->count * (part->body != NULL ? part->body->size : part->element->size);
        }
        if (elements == 0) return bytes;
        if (part->body == NULL) return bytes + elements * part->element->size;
        signature = part->body;
    }
}

bool bytes_of_elements(const struct signature *signature, size_t elements, size_t *bytes) {
    *bytes = 0;
    if (elements == 0) return true;
    if (signature == NULL) return false;
    size_t whole = elements / signature->elements;
    if (__builtin_mul_overflow(whole, signature->size, bytes) || *bytes > PTRDIFF_MAX) return false;
    *bytes += bytes_within(signature, elements % signature->elements);
    return *bytes <= PTRDIFF_MAX;
}
