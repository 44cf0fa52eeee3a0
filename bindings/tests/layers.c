/* Layers that GDAL reads (CSV, SQLite, GeoPackage), as the streams of Arrow that GDAL makes of
 * them: the rows in which an expression is true, and its answers there, compared with OGR's own
 * SQL over the same layers, in its two dialects. Usage: layers FOLDER [ROWS]: the layers are
 * made in the folder. */
#include <gdal/gdal.h>
#include <gdal/ogr_api.h>
#include <gdal/ogr_recordbatch.h>

/* GDAL has the structs, without a guard. */
#define ARROW_C_DATA_INTERFACE
#define ARROW_C_STREAM_INTERFACE

#include "check.h"

static int rows = 20000;
static const char *const words[] = {
    "ion foci", "xylene, mixed isomers", "nitric oxide", "iron", "a \"quoted\" name", "£", "sodium nitrite", "żółw"};

/* Rows of whole numbers and texts, some missing; and a float and a point, which no expression
 * can read. */
static GDALDatasetH make_rows(void) {
    GDALDatasetH set = GDALCreate(GDALGetDriverByName("Memory"), "", 0, 0, 0, GDT_Unknown, NULL);
    OGRLayerH layer = GDALDatasetCreateLayer(set, "given", NULL, wkbPoint, NULL);
    static const struct {
        const char *name;
        OGRFieldType type;
    } made[] = {{"a", OFTInteger64}, {"b", OFTInteger64}, {"c", OFTInteger}, {"s", OFTString}, {"f", OFTReal}};
    for (size_t i = 0; i < COUNT(made); i++) {
        OGRFieldDefnH definition = OGR_Fld_Create(made[i].name, made[i].type);
        OGR_L_CreateField(layer, definition, 1);
        OGR_Fld_Destroy(definition);
    }
    for (int i = 0; i < rows; i++) {
        OGRFeatureH feature = OGR_F_Create(OGR_L_GetLayerDefn(layer));
        if (i % 10 != 3)
            OGR_F_SetFieldInteger64(feature, 0, (GIntBig)i * 7919 % 10007 * 1000003 - 5000);
        if (i % 10 != 7)
            OGR_F_SetFieldInteger64(feature, 1, (GIntBig)i * 104729 % 9973 * 1000000 - 5000);
        if (i % 13 != 5)
            OGR_F_SetFieldInteger(feature, 2, i * 31 % 101 - 50);
        if (i % 7 != 2)
            OGR_F_SetFieldString(feature, 3, words[i * 31 % 8]);
        OGR_F_SetFieldDouble(feature, 4, i / 4.0);
        OGRGeometryH point = OGR_G_CreateGeometry(wkbPoint);
        OGR_G_SetPoint_2D(point, 0, i, -i);
        OGR_F_SetGeometryDirectly(feature, point);
        CHECK(OGR_L_CreateFeature(layer, feature) == OGRERR_NONE);
        OGR_F_Destroy(feature);
    }
    return set;
}

/* Writes the rows by a driver, and opens the result. */
static GDALDatasetH through(GDALDatasetH given, const char *driver, const char *path) {
    GDALDatasetH set = GDALCreate(GDALGetDriverByName(driver), path, 0, 0, 0, GDT_Unknown, NULL);
    CHECK(set != NULL);
    CHECK(GDALDatasetCopyLayer(set, GDALDatasetGetLayer(given, 0), "given", NULL) != NULL);
    GDALClose(set);
    static const char *const options[] = {"AUTODETECT_TYPE=YES", "EMPTY_STRING_AS_NULL=YES", NULL};
    return GDALOpenEx(path, GDAL_OF_VECTOR, NULL, strcmp(driver, "CSV") == 0 ? options : NULL, NULL);
}

/* The results: which rows are true, by GDAL's number, and the sum of the second answer over
 * them. */
struct answered {
    GIntBig *ids;
    size_t count;
    long long sum;
    char format[200];
};

/* Takes the answers of a batch: whether the row is selected, a number, and the row's own number. */
static void take(const struct ArrowArray *batch, struct answered *answered) {
    const struct ArrowArray *taken = batch->children[0], *number = batch->children[1], *id = batch->children[2];
    for (int64_t i = 0; i < batch->length; i++) {
        bool valid = !taken->buffers[0] || bit(taken->buffers[0], (size_t)i);
        if (!valid || !bit(taken->buffers[1], (size_t)i))
            continue;
        answered->ids[answered->count++] = ((const int64_t *)id->buffers[1])[i];
        if (!number->buffers[0] || bit(number->buffers[0], (size_t)i))
            answered->sum += ((const int64_t *)number->buffers[1])[i];
    }
}

/* Evaluates a text over the stream of a layer. */
static struct answered evaluate(OGRLayerH layer, const char *condition, const char *number) {
    struct answered answered = {malloc((size_t)rows * sizeof(GIntBig) + 1), 0, 0, ""};
    struct ArrowArrayStream given, answers;
    struct ArrowSchema schema;
    struct ArrowArray batch;
    struct yk_error error = new_error();
    const char *id = OGR_L_GetFIDColumn(layer);
    char text[500];
    /* SQL over a layer may leave its filter there */
    OGR_L_SetAttributeFilter(layer, NULL);
    CHECK(OGR_L_GetArrowStream(layer, &given, NULL));
    CHECK(given.get_schema(&given, &schema) == 0);
    for (int64_t i = 0; i < schema.n_children; i++)
        snprintf(answered.format + strlen(answered.format), 40, " %s:%s", schema.children[i]->name, schema.children[i]->format);
    schema.release(&schema);
    snprintf(text, sizeof text, "%s as taken, %s as number, \"%s\"", condition, number, id[0] ? id : "OGC_FID");
    uint32_t status = yk_arrow_stream(text, strlen(text), &given, &answers, &error);
    if (status) {
        fprintf(stderr, "%s: refused, %u: %s\n", text, status, message);
        exit(2);
    }
    int code;
    while ((code = answers.get_next(&answers, &batch)) == 0 && batch.release) {
        take(&batch, &answered);
        batch.release(&batch);
    }
    if (code)
        fprintf(stderr, "%s: %s\n", text, answers.get_last_error(&answers)), faults++;
    answers.release(&answers);
    return answered;
}

/* Runs the same in OGR, and compares row by row. */
static void compare(
    const char *kind, GDALDatasetH set, const char *dialect, const char *condition, const char *number, const struct answered *ours) {
    char sql[700];
    bool is_sqlite = strcmp(dialect, "SQLITE") == 0;
    const char *id = is_sqlite ? OGR_L_GetFIDColumn(GDALDatasetGetLayer(set, 0)) : "fid";
    const char *own = id[0] && strcmp(kind, "CSV") != 0 ? id : "rowid";
    /* a column that is only the row number would be no field of the result */
    snprintf(sql, sizeof sql,
        is_sqlite ? "SELECT %s AS number, %s + 0 AS id FROM given WHERE %s" : "SELECT %s AS number, %s AS id FROM given WHERE %s", number,
        is_sqlite ? own : "fid", condition);
    OGRLayerH found = GDALDatasetExecuteSQL(set, sql, NULL, dialect);
    if (!found) {
        fprintf(stderr, "%s: %s: no answer\n", kind, sql);
        faults++;
        return;
    }
    size_t count = 0, other = 0;
    long long sum = 0;
    for (OGRFeatureH feature; (feature = OGR_L_GetNextFeature(found)); OGR_F_Destroy(feature)) {
        int at = OGR_F_GetFieldIndex(feature, "number"), at_id = OGR_F_GetFieldIndex(feature, "id");
        sum += OGR_F_IsFieldSetAndNotNull(feature, at) ? OGR_F_GetFieldAsInteger64(feature, at) : 0;
        other += count >= ours->count || ours->ids[count] != OGR_F_GetFieldAsInteger64(feature, at_id);
        count++;
    }
    if (count != ours->count || other || sum != ours->sum)
        fprintf(stderr, "%s, %s, %s: %zu rows, sum %lld, and here %zu, sum %lld; %zu rows are others\n", kind, dialect, condition, count,
            sum, ours->count, ours->sum, other),
            faults++;
    GDALDatasetReleaseResultSet(set, found);
}

/* Conditions that both write alike, each with a number as the answer. */
static const char *const asked[][2] = {
    {"a < b", "a + b"},
    {"a + b < 10000000000 and s like '%nitr%'", "a"},
    {"a is null or b is null", "b"},
    {"a >= 0 and b >= 0 and a - b > 5000000", "a - b"},
    {"s = 'iron' or s like '%o%e'", "a * 2"},
    {"a between 1000000 and 3000000000", "b"},
    {"s is not null and s <> 'iron' and s < 'sodium'", "a"},
    {"s like '£' or s like '%ó%w'", "b - 1"},
};

static void layer(const char *kind, GDALDatasetH set) {
    if (!set) {
        fprintf(stderr, "%s: not opened\n", kind);
        faults++;
        return;
    }
    size_t taken = 0;
    int before = faults;
    struct answered ours = {NULL, 0, 0, ""};
    for (size_t i = 0; i < COUNT(asked); i++) {
        free(ours.ids);
        ours = evaluate(GDALDatasetGetLayer(set, 0), asked[i][0], asked[i][1]);
        taken += ours.count;
        CHECK(ours.count > 0 && ours.count < (size_t)rows);
        compare(kind, set, "OGRSQL", asked[i][0], asked[i][1], &ours);
        compare(kind, set, "SQLITE", asked[i][0], asked[i][1], &ours);
    }
    if (faults == before)
        printf("%s (%s ): %zu expressions over %d rows, %zu rows taken: as OGR's SQL and SQLite say\n", kind, ours.format, COUNT(asked),
            rows, taken);
    free(ours.ids);
    GDALClose(set);
}

int main(int count, char **arguments) {
    char path[500];
    if (count < 2)
        return 64;
    if (count > 2)
        rows = atoi(arguments[2]);
    GDALAllRegister();
    static const char *const drivers[][2] = {{"CSV", "given.csv"}, {"SQLite", "given.sqlite"}, {"GPKG", "given.gpkg"}};
    GDALDatasetH given = make_rows();
    layer("Memory", given);
    given = make_rows();
    for (size_t i = 0; i < COUNT(drivers); i++) {
        snprintf(path, sizeof path, "%s/%s", arguments[1], drivers[i][1]);
        layer(drivers[i][0], through(given, drivers[i][0], path));
    }
    GDALClose(given);
    return faults != 0;
}
