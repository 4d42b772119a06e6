// A grid of 10 by 5 sites with 7 labels, written once for each way to set costs, as people who come
// from gco-v3 write it. The first 25 sites want label 0 and the others label 5; the border between
// them is 11 pairs long.
#include <stdio.h>
#include <stdlib.h>
#include <string.h>
#include "GCoptimization.h"

struct ForData {
    int numLab;
    int *data;
};

int smoothFn(int, int, int l1, int l2) {
    int far = (l1 - l2) * (l1 - l2);
    return far <= 4 ? far : 4;
}

int dataFn(int p, int l, void *data) {
    ForData *mine = (ForData *)data;
    return mine->data[p * mine->numLab + l];
}

static int failed = 0;

static void expect(const char *where, long long before, long long wantedBefore, long long after,
                   long long wantedAfter, const int *result, int count) {
    printf("\n%s: before optimization energy is %lld, after expansion %lld", where, before, after);
    if (before != wantedBefore || after != wantedAfter) failed = 1;
    for (int i = 0; i < count; i++)
        if (result[i] != (i < 25 ? 0 : 5)) failed = 1;
}

static int *dataArray(int sites, int labels, int cost) {
    int *data = new int[sites * labels];
    for (int i = 0; i < sites; i++)
        for (int l = 0; l < labels; l++) data[i * labels + l] = l == (i < 25 ? 0 : 5) ? 0 : cost;
    return data;
}

static int *smoothArray(int labels) {
    int *smooth = new int[labels * labels];
    for (int l1 = 0; l1 < labels; l1++)
        for (int l2 = 0; l2 < labels; l2++) smooth[l1 + l2 * labels] = smoothFn(0, 0, l1, l2);
    return smooth;
}

void GridGraph_Individually(int width, int height, int num_pixels, int num_labels) {
    int *result = new int[num_pixels];
    try {
        GCoptimizationGridGraph *gc = new GCoptimizationGridGraph(width, height, num_labels);
        for (int i = 0; i < num_pixels; i++)
            for (int l = 0; l < num_labels; l++)
                gc->setDataCost(i, l, l == (i < 25 ? 0 : 5) ? 0 : 10);
        for (int l1 = 0; l1 < num_labels; l1++)
            for (int l2 = 0; l2 < num_labels; l2++)
                gc->setSmoothCost(l1, l2, smoothFn(0, 0, l1, l2));
        long long before = gc->compute_energy();
        gc->expansion(2);
        for (int i = 0; i < num_pixels; i++) result[i] = gc->whatLabel(i);
        expect("individually", before, 250, gc->compute_energy(), 44, result, num_pixels);
        delete gc;
    } catch (GCException e) {
        e.Report();
        failed = 1;
    }
    delete[] result;
}

void GridGraph_Arrays(int width, int height, int num_pixels, int num_labels) {
    int *result = new int[num_pixels], *data = dataArray(num_pixels, num_labels, 10),
        *smooth = smoothArray(num_labels);
    try {
        GCoptimizationGridGraph *gc = new GCoptimizationGridGraph(width, height, num_labels);
        gc->setDataCost(data);
        gc->setSmoothCost(smooth);
        long long before = gc->compute_energy();
        gc->expansion(2);
        gc->whatLabel(0, num_pixels, result);
        expect("arrays", before, 250, gc->compute_energy(), 44, result, num_pixels);
        delete gc;
    } catch (GCException e) {
        e.Report();
        failed = 1;
    }
    delete[] result;
    delete[] smooth;
    delete[] data;
}

// functions for both; the smooth function sees the sites and asks for the labels alone
void GridGraph_Functions(int width, int height, int num_pixels, int num_labels) {
    int *result = new int[num_pixels], *data = dataArray(num_pixels, num_labels, 10);
    try {
        GCoptimizationGridGraph *gc = new GCoptimizationGridGraph(width, height, num_labels);
        ForData toFn;
        toFn.data = data;
        toFn.numLab = num_labels;
        gc->setDataCost(&dataFn, &toFn);
        gc->setSmoothCost(&smoothFn);
        long long before = gc->compute_energy();
        gc->expansion(2);
        for (int i = 0; i < num_pixels; i++) result[i] = gc->whatLabel(i);
        expect("functions", before, 250, gc->compute_energy(), 44, result, num_pixels);
        delete gc;
    } catch (GCException e) {
        e.Report();
        failed = 1;
    }
    delete[] result;
    delete[] data;
}

// weights of each pair in the grid: the border is crossed down from sites 15 to 24 and to the right
// from site 24
void GridGraph_SpatVarying(int width, int height, int num_pixels, int num_labels) {
    int *result = new int[num_pixels], *data = dataArray(num_pixels, num_labels, 1000000),
        *smooth = smoothArray(num_labels);
    int *V = new int[num_pixels], *H = new int[num_pixels];
    for (int i = 0; i < num_pixels; i++) {
        V[i] = 3 + i % 4;
        H[i] = 2 + i % 5;
    }
    long long border = H[24];
    for (int i = 15; i < 25; i++) border += V[i];
    try {
        GCoptimizationGridGraph *gc = new GCoptimizationGridGraph(width, height, num_labels);
        gc->setDataCost(data);
        gc->setSmoothCostVH(smooth, V, H);
        long long before = gc->compute_energy();
        gc->expansion(2);
        for (int i = 0; i < num_pixels; i++) result[i] = gc->whatLabel(i);
        expect("spatially varying", before, 25000000, gc->compute_energy(), 4 * border, result,
               num_pixels);
        delete gc;
    } catch (GCException e) {
        e.Report();
        failed = 1;
    }
    delete[] result;
    delete[] smooth;
    delete[] data;
    delete[] V;
    delete[] H;
}

// a graph of the same neighbours, whose weights are products: up to 39 * 49, which is above 1,000
// and shares no factor
void GeneralGraph_SpatVarying(int width, int height, int num_pixels, int num_labels, bool varying) {
    int *result = new int[num_pixels], *data = dataArray(num_pixels, num_labels, 1000000),
        *smooth = smoothArray(num_labels);
    long long border = 0;
    try {
        GCoptimizationGeneralGraph *gc = new GCoptimizationGeneralGraph(num_pixels, num_labels);
        gc->setDataCost(data);
        gc->setSmoothCost(smooth);
        for (int y = 0; y < height; y++)
            for (int x = 1; x < width; x++) {
                int p1 = x - 1 + y * width, p2 = x + y * width, weight = varying ? p1 * p2 : 1;
                gc->setNeighbors(p1, p2, weight);
                if (p1 < 25 && p2 >= 25) border += weight;
            }
        for (int y = 1; y < height; y++)
            for (int x = 0; x < width; x++) {
                int p1 = x + (y - 1) * width, p2 = x + y * width, weight = varying ? p1 * p2 : 1;
                gc->setNeighbors(p1, p2, weight);
                if (p1 < 25 && p2 >= 25) border += weight;
            }
        long long before = gc->compute_energy();
        gc->expansion(2);
        for (int i = 0; i < num_pixels; i++) result[i] = gc->whatLabel(i);
        expect("general graph", before, 25000000, gc->compute_energy(), 4 * border, result,
               num_pixels);
        delete gc;
    } catch (GCException e) {
        e.Report();
        failed = 1;
    }
    delete[] result;
    delete[] smooth;
    delete[] data;
}

int main() {
    int width = 10, height = 5, num_pixels = width * height, num_labels = 7;
    GridGraph_Individually(width, height, num_pixels, num_labels);
    GridGraph_Arrays(width, height, num_pixels, num_labels);
    GridGraph_Functions(width, height, num_pixels, num_labels);
    GridGraph_SpatVarying(width, height, num_pixels, num_labels);
    GeneralGraph_SpatVarying(width, height, num_pixels, num_labels, false);
    GeneralGraph_SpatVarying(width, height, num_pixels, num_labels, true);
    printf("\n%s\n", failed ? "FAILED" : "all as wanted");
    return failed;
}
