/* A record through libxml2's xmlTextWriter, into a buffer that is used again. */
#include <libxml/xmlwriter.h>
#include <stddef.h>

enum kind { START, ATTRIBUTE, ELEMENT, END };

struct op {
    int kind;
    const char *name;
    const char *text;
};

/* Writes the record so many times, and answers how long it is; 0 where something failed. */
size_t libxml_write(const struct op *ops, size_t count, size_t times)
{
    xmlBufferPtr buffer = xmlBufferCreateSize(131072);
    size_t length = 0;
    int failed = buffer == NULL;
    for (size_t turn = 0; turn < times && !failed; turn++) {
        xmlBufferEmpty(buffer);
        xmlTextWriterPtr writer = xmlNewTextWriterMemory(buffer, 0);
        if (writer == NULL) {
            failed = 1;
            break;
        }
        for (size_t k = 0; k < count; k++) {
            const xmlChar *name = (const xmlChar *)ops[k].name;
            const xmlChar *text = (const xmlChar *)ops[k].text;
            int answer = 0;
            switch (ops[k].kind) {
            case START:
                answer = xmlTextWriterStartElement(writer, name);
                break;
            case ATTRIBUTE:
                answer = xmlTextWriterWriteAttribute(writer, name, text);
                break;
            case ELEMENT:
                answer = xmlTextWriterWriteElement(writer, name, text);
                break;
            case END:
                answer = xmlTextWriterEndElement(writer);
                break;
            }
            failed |= answer < 0;
        }
        xmlFreeTextWriter(writer);
        length = (size_t)xmlBufferLength(buffer);
    }
    xmlBufferFree(buffer);
    return failed ? 0 : length;
}
