/* Checks claims: of files that scripts made, and of a stopped program or its core dump.
 *
 *     claims FILE..            FILE.core has the files of its program beside it; others are objects or programs
 *     claims N FILE..          reads them again and again, and each time another call of malloc fails: each of the
 *                              first 60, and then one in N
 *     claims PID FILE.claims.. a stopped process; or the file of a core dump in place of its number */
#include "claims.h"

#include <fcntl.h>
#include <gelf.h>
#include <pthread.h>
#include <unistd.h>

#include "frame.h"
#include "refusing.h"

struct subject subject;

static Dwfl *dwfl; /* NULL if the file isn't a program */
static dwexpr_libdw_names *names; /* of a program; NULL for libraries that are linked */
static int big_endian;
static char place[4096]; /* of the claims */

/* ---- claims */

dwexpr_libdw_frame *frame_number(size_t number)
{
    if (subject.target)
        return dwexpr_libdw_frame_at(subject.stack, number);
    return number < COUNT(subject.frames) ? subject.frames[number] : NULL;
}

/* Checks a claim, which may be one on each of several frames. */
static void check_claim(const char *claim)
{
    const char *range = strstr(claim, " to ");
    char text[1024], end[8] = "";
    int frame, number = 0, least, counts, at = 0;
    while (range && range > claim && range[-1] != ' ')
        range--;
    if (!range || sscanf(range, "%d to %7s%n", &frame, end, &at) != 2) {
        check(is_of_type(claim) ? is_type(claim) : is_found(claim), place, claim);
        return;
    }
    counts = sscanf(range + at, " = %d down to %d", &number, &least) == 2;
    for (; strcmp(end, "last") ? frame <= atoi(end) : frame_number((size_t)frame) != NULL; frame++, number--) {
        const int front = (int)(range - claim);
        if (counts)
            snprintf(text, sizeof text, "%.*s%d = %d", front, claim, frame, number);
        else
            snprintf(text, sizeof text, "%.*s%d%s", front, claim, frame, range + at);
        check_claim(text);
    }
    check(!counts || number == least - 1, place, claim);
}

/* A claim that is wrong on purpose has to fail. It is tried once. */
static void check_wrong(void)
{
    static int is_tried;
    const int failed_before = failed;
    if (is_tried || refused_call)
        return;
    is_tried = 1;
    snprintf(place, sizeof place, "wrong on purpose");
    check_claim("319f on 0 is 02");
    expect_failure(failed_before);
}

/* Checks claims with semicolons between them. */
static void check_claims(char *claims)
{
    char *next;
    for (; claims; claims = next) {
        next = strstr(claims, "; ");
        if (next) {
            *next = 0;
            next += 2;
        }
        check_claim(claims);
    }
}

/* ---- frames of made-up files */

/* As in frame.h, but register 7 has 0x10. */
static int read_more_registers(void *context, uint32_t number, uint8_t *content, size_t *size)
{
    if (number != 7)
        return read_register(context, number, content, size);
    memset(content, 0, 8);
    content[0] = 0x10;
    *size = 8;
    return 0;
}

/* Memory that a module's file has, or that of frame.h. */
static int read_loaded(void *context, uint64_t address, uint8_t *content, size_t size)
{
    Dwarf_Addr bias;
    Elf *elf = dwfl ? dwfl_module_getelf(dwfl_addrmodule(dwfl, address), &bias) : NULL;
    size_t count = 0, i;
    elf_getphdrnum(elf, &count);
    for (i = 0; i < count; i++) {
        GElf_Phdr segment;
        gelf_getphdr(elf, (int)i, &segment);
        if (segment.p_type == PT_LOAD && address - segment.p_vaddr < segment.p_filesz) {
            memcpy(content, elf_rawfile(elf, NULL) + segment.p_offset + (address - segment.p_vaddr), size);
            return 0;
        }
    }
    return read_memory(context, address, content, size);
}

/* Makes the frames of a row, which stand where its front says, or one without modules. Gives back its claims, or NULL
 * if there is no memory for a frame. */
static char *make_frames(char *row)
{
    dwexpr_libdw_source source = {.dwfl = dwfl, .read_register = read_more_registers, .read_memory = read_loaded,
                                  .context = &big_endian, .is_activation = 1, .names = names};
    size_t count = 0, i;
    unsigned long places[8] = {0};
    int stopped[8] = {0}, read;
    for (; dwfl && sscanf(row, "%lx%n", &places[count], &read) == 1; row += read) {
        stopped[count] = row[read] == '!';
        read += stopped[count++];
    }
    row += dwfl ? strcspn(row, " ") + 1 : 0;
    if (!count) {
        source.unit = dwfl ? &subject.unit : NULL;
        source.dwfl = NULL;
        count = 1;
    }
    for (i = count; i-- > 0;) {
        source.pc = places[i];
        source.is_activation = i == 0 || stopped[i];
        source.caller = i + 1 < count ? subject.frames[i + 1] : NULL;
        if (dwexpr_libdw_make_frame(&source, &subject.frames[i]))
            return NULL;
    }
    return row;
}

static void free_frames(void)
{
    size_t i;
    for (i = 0; i < COUNT(subject.frames); i++) {
        dwexpr_libdw_free_frame(subject.frames[i]);
        subject.frames[i] = NULL;
    }
}

/* ---- files */

/* Finds the frames of a thread, at most so many. */
static int has_stack(pid_t thread, size_t most)
{
    subject.thread = thread;
    dwexpr_libdw_unwind(subject.target, thread, most, &subject.stack);
    check(subject.stack != NULL, place, "frames");
    return subject.stack != NULL;
}

static void check_row(const char *row)
{
    char text[4096], *claims = text;
    snprintf(text, sizeof text, "%s", row);
    if (!subject.target)
        claims = make_frames(text);
    else if (!has_stack((pid_t)strtol(text, &claims, 10), 10))
        return;
    else
        claims += strlen(": ");
    check_claims(claims);
    check_wrong();
    if (subject.target)
        dwexpr_libdw_free_stack(subject.stack);
    else
        free_frames();
}

/* Checks the rows of the subject's unit. */
static void check_rows(const char *path, char separator)
{
    const char *slash = strrchr(path, '/');
    int more;
    Dwarf_Die entry;
    for (more = dwarf_child(&subject.unit, &entry); more == 0; more = dwarf_siblingof(&entry, &entry)) {
        const char *row = dwarf_tag(&entry) == DW_TAG_variable ? dwarf_diename(&entry) : NULL;
        snprintf(place, sizeof place, "%s at 0x%llx", slash ? slash + 1 : path,
                 (unsigned long long)dwarf_dieoffset(&entry));
        subject.variable = entry;
        if (row && strchr(row, separator))
            check_row(row);
    }
}

static const Dwfl_Callbacks finders = {dwfl_build_id_find_elf, dwfl_standard_find_debuginfo, NULL, NULL};

/* Checks an object file or a program, with its libraries. */
static void check_file(const char *path)
{
    const int file = open(path, O_RDONLY);
    Dwarf *dwarf = dwarf_begin(file, DWARF_C_READ);
    Dwarf_CU *cu = NULL;
    Dwarf_Addr bias;
    check(!dwarf_get_units(dwarf, cu, &cu, NULL, NULL, &subject.unit, NULL) &&
              !dwexpr_libdw_encoding(cu, &subject.encoding),
          path, "its unit");
    big_endian = subject.encoding.big_endian;
    dwfl = strstr(path, ".functions") || strstr(path, ".linked") ? dwfl_begin(&finders) : NULL;
    if (dwfl) {
        Dwfl_Module *module = dwfl_report_elf(dwfl, "program", path, -1, 0, 0);
        int number;
        for (number = 1; number < 4; number++) {
            char library[4096];
            snprintf(library, sizeof library, "%s.%d", path, number);
            dwfl_report_elf(dwfl, library, library, -1, 0, 0);
        }
        dwfl_report_end(dwfl, NULL, NULL);
        subject.foreign = subject.unit;
        subject.unit = *dwfl_module_nextcu(module, NULL, &bias);
    }
    names = NULL;
    if (strstr(path, ".functions"))
        dwexpr_libdw_make_names(&names);
    check_rows(path, dwfl ? ':' : ' ');
    dwexpr_libdw_free_names(names);
    dwfl_end(dwfl);
    dwfl = NULL;
    dwarf_end(dwarf);
    close(file);
}

/* Checks what a core dump's program and libraries say of it. */
static void check_core(const char *path)
{
    static const char *const kinds[] = {"program", "linker", "library0", "library1", "library2", "library3",
                                        "library4", "library5", "library6", "library7", "library8", "library9",
                                        "library10"};
    const int length = (int)(strlen(path) - strlen("core")), file = open(path, O_RDONLY);
    Elf *core = elf_begin(file, ELF_C_READ_MMAP, NULL);
    Dwfl *modules = dwfl_begin(&finders);
    Dwarf_Die *unit = NULL;
    Dwarf_Addr bias;
    size_t i;
    for (i = 0; i < COUNT(kinds); i++) {
        snprintf(place, sizeof place, "%.*s%s", length, path, kinds[i]);
        dwfl_report_elf(modules, kinds[i], place, -1, 0, 0);
    }
    dwfl_report_end(modules, NULL, NULL);
    check(dwfl_core_file_attach(modules, core) > 0 && !dwexpr_libdw_attach(modules, core, &subject.target), path,
          "it is opened");
    check(subject.target && dwexpr_libdw_dwfl(subject.target) == modules, path, "its Dwfl");
    while (subject.target && (unit = dwfl_nextcu(modules, unit, &bias)) != NULL) {
        subject.unit = *unit;
        dwexpr_libdw_encoding(unit->cu, &subject.encoding);
        check_rows(path, ':');
    }
    dwexpr_libdw_close(subject.target);
    subject.target = NULL;
    dwfl_end(modules);
    elf_end(core);
    close(file);
}

/* Checks the claims in a file. */
static void check_lines(const char *path)
{
    char line[256];
    FILE *file = fopen(path, "r");
    snprintf(place, sizeof place, "%s", path);
    check(file != NULL, path, "it is there");
    while (file && fgets(line, sizeof line, file)) {
        line[strcspn(line, "\n")] = 0;
        if (*line && *line != '#')
            check_claim(line);
    }
    if (file)
        fclose(file);
}

/* The words of the command, without its name. */
static int words_length;
static char **words;

/* Checks the claims in files on the first thread of a process or a core dump. */
static void check_program(void)
{
    const pid_t number = (pid_t)atol(words[0]), *threads;
    const uint32_t code = number ? dwexpr_libdw_open_process(number, NULL, &subject.target)
                                 : dwexpr_libdw_open_core(words[0], NULL, NULL, &subject.target);
    int i;
    subject.encoding = LE8;
    check(!code, words[0], dwexpr_libdw_code_name(code));
    if (!code && dwexpr_libdw_threads(subject.target, &threads) && has_stack(threads[0], 1000)) {
        for (i = 1; i < words_length; i++)
            check_lines(words[i]);
        check_wrong();
        dwexpr_libdw_free_stack(subject.stack);
    }
    dwexpr_libdw_close(subject.target);
}

static void check_path(const char *path)
{
    const char *end = strrchr(path, '.');
    if (end && !strcmp(end, ".core"))
        check_core(path);
    else
        check_file(path);
}

static void check_files(void)
{
    char *rest = words[0];
    const unsigned long number = words_length > 1 ? strtoul(words[0], &rest, 10) : 0, step = *rest ? 0 : number;
    int i;
    for (i = step ? 1 : 0; i < words_length; i++) {
        unsigned long all;
        calls = refused_call = 0;
        check_path(words[i]);
        all = calls;
        subject.may_refuse = 1;
        for (refused_call = 1; step && refused_call <= all; refused_call += refused_call < 60 ? 1 : step) {
            calls = 0;
            check_path(words[i]);
        }
        subject.may_refuse = 0;
    }
}

/* Runs on a small stack. */
static void *run(void *unused)
{
    if (strstr(words[words_length - 1], ".claims"))
        check_program();
    else
        check_files();
    return unused;
}

int main(int argc, char **argv)
{
    pthread_attr_t attributes;
    pthread_t thread;
    if (argc < 2)
        return 2;
    words_length = argc - 1;
    words = argv + 1;
    elf_version(EV_CURRENT);
    pthread_attr_init(&attributes);
    pthread_attr_setstacksize(&attributes, 1 << 17);
    check(!pthread_create(&thread, &attributes, run, NULL) && !pthread_join(thread, NULL), "a thread", "it has run");
    return finish();
}
