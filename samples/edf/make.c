/* Writes the samples of EDFlib, EDF+ files with one data record of one second: make SAMPLES, where SAMPLES is the folder samples/. */

#include <edflib.h>
#include <stdio.h>
#include <stdlib.h>

struct signal {
    const char *label, *transducer, *unit;
    double greatest;
};

static const char *folder;

static void check(int result, const char *what) {
    if (result < 0) {
        fprintf(stderr, "%s: %d\n", what, result);
        exit(1);
    }
}

/* two samples a second of each signal, and an annotation */
static void write_file(const char *name, const struct signal *signals, int count) {
    char path[4096];
    snprintf(path, sizeof path, "%s/%s", folder, name);
    int file = edfopen_file_writeonly(path, EDFLIB_FILETYPE_EDFPLUS, count);
    check(file, path);
    for (int signal = 0; signal < count; signal++) {
        const struct signal *of = &signals[signal];
        check(edf_set_samplefrequency(file, signal, 2), "frequency");
        check(edf_set_physical_maximum(file, signal, of->greatest), "maximum");
        check(edf_set_physical_minimum(file, signal, -of->greatest), "minimum");
        check(edf_set_digital_maximum(file, signal, 32767), "digital maximum");
        check(edf_set_digital_minimum(file, signal, -32768), "digital minimum");
        check(edf_set_label(file, signal, of->label), "label");
        check(edf_set_transducer(file, signal, of->transducer), "transducer");
        check(edf_set_physical_dimension(file, signal, of->unit), "unit");
    }
    check(edf_set_startdatetime(file, 2026, 11, 16, 22, 30, 0), "start");
    double samples[2] = {0.0, 0.5};
    for (int signal = 0; signal < count; signal++) check(edfwrite_physical_samples(file, samples), "samples");
    check(edfwrite_annotation_utf8(file, 0, -1, "Lights off"), "annotation");
    check(edfclose_file(file), "close");
}

#define COUNT(signals) (int)(sizeof(signals) / sizeof *(signals))

int main(int words, char **word) {
    if (words != 2) {
        fprintf(stderr, "usage: make SAMPLES\n");
        return 2;
    }
    folder = word[1];
    const struct signal per_minute = {"Resp Flow", "Pneumotachograph", "L/min", 180};
    const struct signal per_second = {"Resp Flow", "Pneumotachograph", "L/s", 3};
    const struct signal lower_case = {"Resp Flow", "Pneumotachograph", "l/min", 180};
    const struct signal eeg = {"EEG Fpz-Cz", "Ag-AgCl cup electrodes", "uV", 250};
    const struct signal oxygen = {"SaO2", "Finger", "%", 100};

    const struct signal night[] = {per_minute, oxygen};
    write_file("airflow.edf", night, COUNT(night));
    const struct signal alone[] = {per_minute};
    write_file("edf/per-minute.edf", alone, COUNT(alone));
    const struct signal among[] = {eeg, per_second, oxygen, per_minute, eeg};
    write_file("edf/both-among-others.edf", among, COUNT(among));
    const struct signal unclear[] = {per_minute, eeg, lower_case};
    write_file("edf/lower-case.edf", unclear, COUNT(unclear));
    const struct signal none[] = {eeg, oxygen};
    write_file("edf/no-flow.edf", none, COUNT(none));
    struct signal many[33];
    for (int flow = 0; flow < 33; flow++) many[flow] = flow % 2 ? per_second : per_minute;
    write_file("edf/32-flows.edf", many, 32);
    write_file("edf/33-flows.edf", many, 33);
    return 0;
}
