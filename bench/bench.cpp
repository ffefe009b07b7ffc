// Four readers of XML on the same bytes: the sheet's reader of this repository, expat, libxml2 and pugixml.
// First each of them must accept the sheet and find the same elements; then each is timed, in turns. See README.md beside this file.
#include <algorithm>
#include <chrono>
#include <cstdint>
#include <cstdio>
#include <cstdlib>
#include <cstring>
#include <functional>
#include <string>
#include <vector>

#include <expat.h>
#include <libxml/parser.h>
#include <libxml/tree.h>
#include <pugixml.hpp>

// The proved reader. `which` below 256: the start of that element; below 512: the depth of the element 256 before; from 512 on: the number of
// elements, or the place of the refusal and a million.
extern "C" uint64_t damvurit_read_sheet(const uint8_t *sheet, size_t length, size_t which);

static const size_t NUMBER = 512;
static const int ELEMENTS_MOST = 256;

[[noreturn]] static void fail(const std::string &why) {
    std::fprintf(stderr, "bench: %s\n", why.c_str());
    std::exit(1);
}

// ---- The sheets ----

static std::string element(const std::string &name, const std::string &content) { return "<" + name + ">" + content + "</" + name + ">"; }

static std::string agent(const std::string &name, const std::string &system, const std::string &code) {
    const std::string listed = system.empty() ? "" : element("ClrSysId", element("Prtry", system));
    return element(name, element("FinInstnId", element("ClrSysMmbId", listed + element("MmbId", code))));
}

static std::string account(const std::string &name, const std::string &iban) { return element(name, element("Id", element("IBAN", iban))); }

// A pacs.008 as a clerk would send it: 40 elements.
static std::string typical_sheet() {
    const std::string header = element(
        "GrpHdr", element("MsgId", "30000120251114A1B2C3D4") + element("CreDtTm", "2025-11-14T10:15:30") + agent("InstgAgt", "", "300001") + agent("InstdAgt", "", "300002"));
    const std::string transfer = element(
        "CdtTrfTxInf", element("PmtId", element("EndToEndId", "INVOICE-2025-000417-PART-2") + element("UETR", "7a562c67-ca16-48ba-b074-65581be6f001")) +
                           "<IntrBkSttlmAmt Ccy=\"UAH\">1250.75</IntrBkSttlmAmt>" + element("Dbtr", element("Nm", "Kyiv Bakery Works, limited liability company, Podil")) +
                           account("DbtrAcct", "UA213000010000026007233566001") + agent("DbtrAgt", "SEP", "300001") + agent("CdtrAgt", "SEP", "300002") +
                           element("Cdtr", element("Nm", "Lviv Flour Mill and Trading House, joint stock company")) + account("CdtrAcct", "UA903000020000026003012345678"));
    return element("Document", element("FIToFICstmrCdtTrf", header + transfer));
}

// A name of twelve letters.
static std::string letters(int n) {
    std::string name = "Element";
    for (int i = 0; i < 5; i++) {
        name += char('a' + n % 26);
        n /= 26;
    }
    return name;
}

// The largest sheet: 8,192 bytes, 256 elements. Under the outer element stand 23 chains that reach level 12 and one that reaches level 3, each
// with 32 bytes of text in its last element: 256 elements of 29 bytes of tags and 24 texts of 32 bytes.
static std::string worst_sheet() {
    int made = 1;
    std::string chains;
    for (int chain = 0; chain < 24; chain++) {
        const int levels = chain < 23 ? 11 : 2;
        std::string inner(32, char('A' + chain));
        for (int level = 0; level < levels; level++) inner = element(letters(made++), inner);
        chains += inner;
    }
    return element(letters(0), chains);
}

// ---- The four readers ----

// One way of reading: `once` reads the sheet and says whether it was accepted; `count` finds its number of elements, and is not timed.
struct Side {
    std::string name;
    std::function<bool()> once;
    std::function<int()> count;
};

struct Places {
    XML_Parser parser;
    int count = 0;
    int depth = 0;
    std::vector<uint64_t> starts;
    std::vector<uint64_t> depths;
};

static void XMLCALL count_start(void *data, const XML_Char *, const XML_Char **) { ++*static_cast<int *>(data); }

static void XMLCALL place_start(void *data, const XML_Char *, const XML_Char **) {
    auto *p = static_cast<Places *>(data);
    p->count++;
    p->starts.push_back(uint64_t(XML_GetCurrentByteIndex(p->parser)));
    p->depths.push_back(uint64_t(++p->depth));
}

static void XMLCALL place_end(void *data, const XML_Char *) { --static_cast<Places *>(data)->depth; }

static void sax_start(void *data, const xmlChar *, const xmlChar *, const xmlChar *, int, const xmlChar **, int, int, const xmlChar **) {
    ++*static_cast<int *>(static_cast<xmlParserCtxtPtr>(data)->_private);
}

static int tree_elements(const xmlNode *node) {
    int n = 0;
    for (; node; node = node->next)
        if (node->type == XML_ELEMENT_NODE) n += 1 + tree_elements(node->children);
    return n;
}

static int tree_elements(const pugi::xml_node &node) {
    int n = 0;
    for (pugi::xml_node child : node.children())
        if (child.type() == pugi::node_element) n += 1 + tree_elements(child);
    return n;
}

// Every element's start and depth by our reader, held to expat's.
static void same_places(const std::string &sheet) {
    const auto *bytes = reinterpret_cast<const uint8_t *>(sheet.data());
    Places places;
    places.parser = XML_ParserCreate("UTF-8");
    XML_SetUserData(places.parser, &places);
    XML_SetElementHandler(places.parser, place_start, place_end);
    if (XML_Parse(places.parser, sheet.data(), int(sheet.size()), 1) != XML_STATUS_OK) fail("expat refuses the sheet");
    XML_ParserFree(places.parser);
    if (places.count > ELEMENTS_MOST) fail("the sheet has too many elements");
    for (int k = 0; k < ELEMENTS_MOST; k++) {
        const uint64_t start = k < places.count ? places.starts[k] : 0, depth = k < places.count ? places.depths[k] : 0;
        if (damvurit_read_sheet(bytes, sheet.size(), size_t(k)) != start) fail("the start of element " + std::to_string(k) + " differs");
        if (damvurit_read_sheet(bytes, sheet.size(), size_t(k) + 256) != depth) fail("the depth of element " + std::to_string(k) + " differs");
    }
}

static std::vector<Side> sides_for(const std::string &sheet) {
    const auto *bytes = reinterpret_cast<const uint8_t *>(sheet.data());
    const char *text = sheet.data();
    const size_t n = sheet.size();
    std::vector<Side> sides;

    sides.push_back({"damvurit", [=] { return damvurit_read_sheet(bytes, n, NUMBER) <= uint64_t(ELEMENTS_MOST); }, [=] { return int(damvurit_read_sheet(bytes, n, NUMBER)); }});

    // expat: one parser, set back before each sheet.
    static XML_Parser parser = XML_ParserCreate("UTF-8");
    static int seen;
    auto expat = [=] {
        seen = 0;
        XML_ParserReset(parser, "UTF-8");
        XML_SetUserData(parser, &seen);
        XML_SetStartElementHandler(parser, count_start);
        return XML_Parse(parser, text, int(n), 1) == XML_STATUS_OK;
    };
    sides.push_back({"expat", expat, [=] { expat(); return seen; }});

    // libxml2: one context; once with a handler that counts, once with its tree.
    const int options = XML_PARSE_NONET | XML_PARSE_COMPACT | XML_PARSE_NOERROR | XML_PARSE_NOWARNING;
    static xmlParserCtxtPtr events = [] {
        xmlParserCtxtPtr c = xmlNewParserCtxt();
        std::memset(c->sax, 0, sizeof *c->sax);
        c->sax->initialized = XML_SAX2_MAGIC;
        c->sax->startElementNs = sax_start;
        c->_private = &seen;
        return c;
    }();
    auto sax = [=] {
        seen = 0;
        xmlDocPtr doc = xmlCtxtReadMemory(events, text, int(n), nullptr, "UTF-8", options);
        if (doc) xmlFreeDoc(doc);
        return events->wellFormed != 0;
    };
    sides.push_back({"libxml2, events", sax, [=] { sax(); return seen; }});

    static xmlParserCtxtPtr trees = xmlNewParserCtxt();
    auto tree = [=] { return xmlCtxtReadMemory(trees, text, int(n), nullptr, "UTF-8", options); };
    sides.push_back({"libxml2, tree",
                     [=] {
                         xmlDocPtr doc = tree();
                         if (!doc) return false;
                         xmlFreeDoc(doc);
                         return true;
                     },
                     [=] {
                         xmlDocPtr doc = tree();
                         const int count = doc ? tree_elements(doc->children) : -1;
                         if (doc) xmlFreeDoc(doc);
                         return count;
                     }});

    // pugixml: one document. It writes into the bytes that it reads, so they are copied first; in its usual form it copies them itself.
    static pugi::xml_document document;
    static std::vector<char> copy(16384);
    auto quick = [=] {
        std::memcpy(copy.data(), text, n);
        return bool(document.load_buffer_inplace(copy.data(), n, pugi::parse_minimal, pugi::encoding_utf8));
    };
    sides.push_back({"pugixml", quick, [=] { return quick() ? tree_elements(document) : -1; }});
    auto usual = [=] { return bool(document.load_buffer(text, n)); };
    sides.push_back({"pugixml, as usual", usual, [=] { return usual() ? tree_elements(document) : -1; }});
    return sides;
}

// ---- The measurement ----

static double nanoseconds(const std::function<bool()> &once, int times) {
    const auto from = std::chrono::steady_clock::now();
    int accepted = 0;
    for (int i = 0; i < times; i++) accepted += once();
    const auto to = std::chrono::steady_clock::now();
    if (accepted != times) fail("a sheet that was accepted is refused");
    return std::chrono::duration<double, std::nano>(to - from).count() / times;
}

static double middle(std::vector<double> xs) {
    std::sort(xs.begin(), xs.end());
    return xs[xs.size() / 2];
}

static void measure(const char *title, const std::string &sheet, int elements, int rounds, double round_ms) {
    same_places(sheet);
    std::vector<Side> sides = sides_for(sheet);
    for (const Side &side : sides) {
        if (!side.once()) fail(side.name + " refuses " + title);
        const int count = side.count();
        if (count != elements) fail(side.name + " finds " + std::to_string(count) + " elements in " + title + ", and not " + std::to_string(elements));
    }
    std::vector<std::vector<double>> times(sides.size());
    std::vector<int> repeats;
    for (const Side &side : sides) {
        nanoseconds(side.once, 50);
        repeats.push_back(std::max(50, int(round_ms * 1e6 / nanoseconds(side.once, 50))));
    }
    for (int round = 0; round < rounds; round++)
        for (size_t k = 0; k < sides.size(); k++) times[k].push_back(nanoseconds(sides[k].once, repeats[k]));
    // A ratio is taken within each round, where both sides met the same load of the machine, and then the middle one of all rounds.
    const std::vector<double> *base = nullptr;
    for (size_t k = 0; k < sides.size(); k++)
        if (sides[k].name == "pugixml") base = &times[k];
    std::printf("\n%s: %zu bytes, %d elements; all sides accept it and find the same elements\n", title, sheet.size(), elements);
    std::printf("  %-20s %12s %12s %12s\n", "", "median ns", "best ns", "to pugixml");
    for (size_t k = 0; k < sides.size(); k++) {
        std::vector<double> ratios;
        for (int round = 0; round < rounds; round++) ratios.push_back(times[k][round] / (*base)[round]);
        std::printf("  %-20s %12.0f %12.0f %12.2f\n", sides[k].name.c_str(), middle(times[k]), *std::min_element(times[k].begin(), times[k].end()), middle(ratios));
    }
}

int main(int argc, char **argv) {
    const int rounds = argc > 1 ? std::atoi(argv[1]) : 101;
    const double round_ms = argc > 2 ? std::atof(argv[2]) : 4;
    if (rounds < 1 || round_ms <= 0) fail("usage: bench [ROUNDS] [MILLISECONDS OF A ROUND]");
    LIBXML_TEST_VERSION
    std::printf("expat %d.%d.%d, libxml2 %s, pugixml %d.%d\n", XML_MAJOR_VERSION, XML_MINOR_VERSION, XML_MICRO_VERSION, LIBXML_DOTTED_VERSION, PUGIXML_VERSION / 1000,
                PUGIXML_VERSION % 1000 / 10);
    std::printf("%d rounds of %.0f ms for each side, in turns\n", rounds, round_ms);
    const std::string worst = worst_sheet();
    if (worst.size() != 8192) fail("the worst sheet has " + std::to_string(worst.size()) + " bytes");
    measure("a typical pacs.008", typical_sheet(), 40, rounds, round_ms);
    measure("the worst sheet", worst, 256, rounds, round_ms);
    return 0;
}
