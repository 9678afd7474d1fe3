/* trace show: what the descriptor says, in the order in which an engineer looks for it, and what the arrays hold. */
#include "host.h"
#include "tessarquin.h"

/* ---- fields of an opened block */

static int word_at(const struct opened *o, size_t at)
{
    return tessarquin_field_word(o->payload + at, o->order);
}

static int32_t long_at(const struct opened *o, size_t at)
{
    return tessarquin_field_long(o->payload + at, o->order);
}

static double double_at(const struct opened *o, size_t at)
{
    return tessarquin_field_double(o->payload + at, o->order);
}

/* ---- lines */

static void print_name(const char *name)
{
    printf("%-17s", name);
}

static void print_text_or_none(struct part text)
{
    if (text.length == 0)
        fputs("(none)", stdout);
    else
        write_text(stdout, text.bytes, text.length);
}

static void print_text(const char *name, struct part text)
{
    print_name(name);
    print_text_or_none(text);
    putchar('\n');
}

static void print_float(float x)
{
    char room[DECIMAL_MOST + 1];
    *put_float(room, x) = 0;
    fputs(room, stdout);
}

static void print_float_in(const char *name, float x, struct part unit)
{
    print_name(name);
    print_float(x);
    write_unit(stdout, unit);
    putchar('\n');
}

/* The digits of numbers that were worked out. */
static int digits;

/* Such a number; a zero has no sign. */
static void print_double(double x)
{
    printf("%.*g", digits, x + 0.0);
}

static void print_double_in(double x, struct part unit)
{
    print_double(x);
    write_unit(stdout, unit);
}

static void print_range(double from, double to, struct part unit)
{
    print_double(from);
    fputs(" to ", stdout);
    print_double_in(to, unit);
}

/* ---- who, when, what */

/* Zero bytes that fill the text up to its length are not shown. */
static void show_user_text(const struct opened *o)
{
    uint8_t answer[TESSARQUIN_USER_TEXT_BYTES];
    uint32_t refusal = tessarquin_user_text(o->block.bytes, o->block.length, answer, sizeof answer);
    if (refusal)
        refuse_block(o->block, refusal);
    struct part text = {o->block.bytes + tessarquin_number(answer, TESSARQUIN_USER_TEXT_START),
                        (size_t)tessarquin_number(answer, TESSARQUIN_USER_TEXT_LENGTH)};
    while (text.length > 0 && text.bytes[text.length - 1] == 0)
        text.length--;
    print_text("user text", text);
}

static void show_instrument(const struct opened *o)
{
    print_name("instrument");
    write_instrument(stdout, o, "(none)");
    putchar('\n');
}

static int days_in(int year, int month)
{
    static const int days[] = {31, 28, 31, 30, 31, 30, 31, 31, 30, 31, 30, 31};
    int leap = year % 4 == 0 && (year % 100 != 0 || year % 400 == 0);
    return days[month - 1] + (month == 2 && leap);
}

/* The date and the time of day as the instrument's clock had them. They are carried and not judged: what is no date is
   printed number by number. Half a nanosecond before a full minute would be rounded to sixty seconds. */
static void show_triggered(const struct opened *o)
{
    const uint8_t *at = o->payload;
    int year = word_at(o, TESSARQUIN_AT_TRIGGER_YEAR), month = at[TESSARQUIN_AT_TRIGGER_MONTHS], day = at[TESSARQUIN_AT_TRIGGER_DAYS];
    int hour = at[TESSARQUIN_AT_TRIGGER_HOURS], minute = at[TESSARQUIN_AT_TRIGGER_MINUTES];
    double second = double_at(o, TESSARQUIN_AT_TRIGGER_SECONDS) + 0.0;
    int dated = year >= 1 && year <= 9999 && month >= 1 && month <= 12 && day >= 1 && day <= days_in(year, month);
    print_name("triggered");
    if (year == 0 && month == 0 && day == 0 && hour == 0 && minute == 0 && second == 0)
        puts("(none)");
    else if (dated && hour < 24 && minute < 60 && second >= 0 && second < 59.9999999995)
        printf("%04d-%02d-%02d %02d:%02d:%012.9f\n", year, month, day, hour, minute, second);
    else
        printf("no date: year %d, month %d, day %d, hour %d, minute %d, second %.12g\n", year, month, day, hour, minute, second);
}

static void show_record(const struct opened *o)
{
    print_name("record type");
    puts(record_type(word_at(o, TESSARQUIN_AT_RECORD_TYPE)));
    print_name("processing");
    puts(processing(word_at(o, TESSARQUIN_AT_PROCESSING_DONE)));
    print_name("source");
    puts(wave_source(word_at(o, TESSARQUIN_AT_WAVE_SOURCE)));
}

/* ---- the vertical side */

/* The values of two samples, the lower one first, and the samples themselves, with what they are. */
static void print_limits(const struct opened *o, struct limits limits, const char *as, struct part unit)
{
    struct range values = values_of(o, limits);
    print_range(values.from, values.to, unit);
    fputs(" (samples ", stdout);
    print_float(limits.low);
    fputs(" to ", stdout);
    print_float(limits.high);
    printf("%s)\n", as);
}

static void show_limits(const struct opened *o, struct part unit)
{
    print_name("full range");
    print_limits(o, rails_of(o), "", unit);
    print_name("stated limits");
    if (are_stated(stated_limits(o)))
        print_limits(o, stated_limits(o), were_words(o) ? ", as words" : "", unit);
    else
        puts("(none)");
}

static void show_vertical(const struct opened *o, struct part unit)
{
    float gain = float_at(o, TESSARQUIN_AT_VERTICAL_GAIN), offset = float_at(o, TESSARQUIN_AT_VERTICAL_OFFSET);
    print_text("values in", unit);
    print_float_in("gain", gain, unit);
    print_float_in("offset", offset, unit);
    show_limits(o, unit);
    print_float_in("probe", float_at(o, TESSARQUIN_AT_PROBE_ATT), (struct part){NULL, 0});
    print_name("coupling");
    puts(coupling(word_at(o, TESSARQUIN_AT_VERT_COUPLING)));
    print_name("bandwidth limit");
    puts(bandwidth_limit(word_at(o, TESSARQUIN_AT_BANDWIDTH_LIMIT)));
}

/* ---- the horizontal side */

static void show_time_rule(const struct opened *o, struct part unit)
{
    print_name("times by");
    if (o->trigtime.length > 0) {
        fputs(o->segments > 1 ? "trigger times, one for each segment, " : "trigger time, ", stdout);
        print_double(trigger_time(o, 1));
        if (o->segments > 1) {
            fputs(" s to ", stdout);
            print_double(trigger_time(o, o->segments));
        }
        puts(" s after the first trigger");
    } else if (o->ristime.length > 0)
        printf("RIS, offsets of %s\n", counted((int64_t)o->ristime.length / 8, "sweep"));
    else {
        fputs("horizontal offset, ", stdout);
        print_double_in(double_at(o, TESSARQUIN_AT_HORIZ_OFFSET), unit);
        putchar('\n');
    }
}

/* From the first point to the last of the first segment. */
static void show_span(const struct opened *o, struct part unit)
{
    double first = point_of(o, 1, 1, 0).time, last = point_of(o, 1, 1, o->points - 1).time;
    print_name("span");
    print_double_in(last - first, unit);
    fputs(o->segments > 1 ? ", segment 1 from " : ", from ", stdout);
    print_range(first, last, unit);
    putchar('\n');
}

static void show_horizontal(const struct opened *o, struct part unit)
{
    float interval = float_at(o, TESSARQUIN_AT_HORIZ_INTERVAL);
    double between = (double)interval * o->sparsing;
    print_text("times in", unit);
    print_name("interval");
    print_float(interval);
    write_unit(stdout, unit);
    if (o->sparsing > 1) {
        fputs(", between points ", stdout);
        print_double_in(between, unit);
    }
    putchar('\n');
    show_span(o, unit);
    print_name("rate");
    if (between == 0)
        fputs("(none)", stdout);
    else {
        print_double(1 / between);
        fputs(" points per", stdout);
        write_unit(stdout, unit.length ? unit : (struct part){(const uint8_t *)"unit", 4});
    }
    putchar('\n');
    show_time_rule(o, unit);
    printf("%-17s%s\n%-17s%s\n", "first point F", grouped(o->first), "sparsing S", grouped(o->sparsing));
}

/* ---- what is in the arrays */

/* The samples of an array: the first of the lowest and of the highest, by their places among those of all segments, and
   the mean of all. */
struct samples {
    size_t lowest, highest;
    double mean;
};

static struct samples samples_of(const struct opened *o, uint32_t array)
{
    const uint8_t *samples = o->samples[array - 1].bytes;
    size_t count = (size_t)o->points * o->segments;
    struct samples all = {0, 0, 0};
    int32_t lowest = INT32_MAX, highest = INT32_MIN;
    int64_t sum = 0;
    for (size_t i = 0; i < count; i++) {
        int32_t sample = o->type == TESSARQUIN_WORD ? tessarquin_field_word(samples + 2 * i, o->order) : (int8_t)samples[i];
        sum += sample;
        if (sample < lowest)
            lowest = sample, all.lowest = i;
        if (sample > highest)
            highest = sample, all.highest = i;
    }
    all.mean = (double)sum / (double)count;
    return all;
}

/* Answers whether the point at this place has the mark. */
static int print_place(const struct opened *o, uint32_t array, const char *name, size_t at, struct part unit)
{
    uint32_t segment = (uint32_t)(at / o->points) + 1, k = (uint32_t)(at % o->points);
    struct point point = point_of(o, array, segment, k);
    printf("%s ", name);
    print_double_in(point.value, unit);
    fputs(" (", stdout);
    if (o->segments > 1)
        printf("segment %s, ", grouped(segment));
    printf("point %s%s), ", grouped(k), point.mark ? ", at the rail" : "");
    return point.mark;
}

/* The value rises with the sample, or falls where the gain is below 0: so the samples are compared, and the library is
   asked for two of them. Where neither stands at the rail, no other does. */
static void show_array(const struct opened *o, uint32_t array, struct part unit)
{
    float gain = float_at(o, TESSARQUIN_AT_VERTICAL_GAIN), offset = float_at(o, TESSARQUIN_AT_VERTICAL_OFFSET);
    struct samples all = samples_of(o, array);
    printf("array %-11u", (unsigned)array);
    int least_marked = print_place(o, array, "least", gain < 0 ? all.highest : all.lowest, unit);
    int greatest_marked = print_place(o, array, "greatest", gain < 0 ? all.lowest : all.highest, unit);
    fputs("mean ", stdout);
    print_double_in((double)gain * all.mean - (double)offset, unit);
    putchar('\n');
    if (least_marked || greatest_marked)
        show_rail(o, array);
}

/* The points that are good, over all segments: a roll or a sequence that was stopped has a rest that is not. */
static void show_valid(const struct opened *o)
{
    int64_t first = long_at(o, TESSARQUIN_AT_FIRST_VALID_PNT), last = long_at(o, TESSARQUIN_AT_LAST_VALID_PNT);
    int64_t count = (int64_t)o->points * o->segments;
    printf("%-17s%s to %s", "valid points", grouped(first), grouped(last));
    if (first > 0 || last < count - 1)
        printf("; least, greatest, mean and samples at the rail are of all %s", grouped(count));
    putchar('\n');
}

/* What a sample is, and of bytes that were words what their values were. */
static void show_samples(const struct opened *o, struct part unit)
{
    double gain = (double)float_at(o, TESSARQUIN_AT_VERTICAL_GAIN);
    printf("%-17s%s, %s byte first", "samples", o->type == TESSARQUIN_WORD ? "words" : "bytes", o->order == TESSARQUIN_LOFIRST ? "low" : "high");
    if (were_words(o))
        fputs("; narrowed from words, by the stated limits", stdout);
    if (were_words(o) && gain != 0) {
        printf(": each value was as it is or %s, by less than ", gain > 0 ? "higher" : "lower");
        print_double_in(gain > 0 ? gain : -gain, unit);
    }
    putchar('\n');
}

static void show_arrays(const struct opened *o, struct part unit)
{
    printf("%-17s%s\n", "segments", grouped(o->segments));
    printf("%-17s%s\n", "segment index", grouped(o->index));
    printf("%-17s%s in each segment\n", "points", grouped(o->points));
    show_valid(o);
    show_samples(o, unit);
    for (uint32_t array = 1; array <= o->arrays; array++)
        show_array(o, array, unit);
}

void show(const char *name, int digits_of_results)
{
    digits = digits_of_results;
    struct opened o = open_block(read_block(name));
    struct part vertical = text_at(&o, TESSARQUIN_AT_VERTUNIT, TESSARQUIN_UNIT_BYTES);
    struct part horizontal = text_at(&o, TESSARQUIN_AT_HORUNIT, TESSARQUIN_UNIT_BYTES);
    struct part before = {o.block.file.bytes, (size_t)(o.block.bytes - o.block.file.bytes)};
    printf("%-17s%s\n", "block", counted((int64_t)o.block.length, "byte"));
    if (before.length > 0)
        print_text("words before it", before);
    print_text("label", label_of(&o, "(none)"));
    show_instrument(&o);
    show_user_text(&o);
    show_triggered(&o);
    show_record(&o);
    show_vertical(&o, vertical);
    show_horizontal(&o, horizontal);
    show_arrays(&o, vertical);
}
