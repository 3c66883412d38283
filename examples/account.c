/* Prints the account of a scene: a line for each object with the triangles offered, kept and too
 * thin to draw, and the verdict on the mesh. */
#include <stdio.h>
#include <stdlib.h>

#include "object_mesh.h"

static uint8_t scene[16777217];

/* Room for n numbers of this size, and one more; the library wants no null pointer. */
static void *room(uint32_t n, size_t size) {
    void *p = malloc(size * ((size_t)n + 1));
    if (p == NULL) {
        fputs("no memory\n", stderr);
        exit(1);
    }
    return p;
}

static void stop_if_refused(object_mesh_answer answer) {
    if (answer.refusal != OBJECT_MESH_REFUSED_NONE) {
        printf("refused %u, object %u: %s\n", answer.refusal, answer.object,
               object_mesh_refusal_text(answer.refusal));
        exit(1);
    }
}

int main(int argc, char **argv) {
    FILE *file = argc == 2 ? fopen(argv[1], "rb") : NULL;
    if (file == NULL) {
        fputs("usage: account SCENE\n", stderr);
        return 1;
    }
    size_t length = fread(scene, 1, sizeof scene, file);
    fclose(file);

    object_mesh_answer need = object_mesh_measure(scene, length);
    stop_if_refused(need);
    float *vertices = room(need.vertices, sizeof *vertices);
    float *normals = room(need.normals, sizeof *normals);
    uint32_t *indices = room(need.indices, sizeof *indices);
    uint32_t *spans = room(need.spans, sizeof *spans);
    uint32_t *account = room(need.account, sizeof *account);
    uint32_t *log = room(need.log, sizeof *log);
    int64_t *millimetres = room(need.millimetres, sizeof *millimetres);
    stop_if_refused(object_mesh_build(scene, length, vertices, need.vertices, normals, need.normals,
                                      indices, need.indices, spans, need.spans, account,
                                      need.account, log, need.log, millimetres, need.millimetres));

    for (uint32_t k = 0; k < need.account; k += 4) {
        printf("object %u: offered %u, kept %u, thin %u\n", k / 4, account[k], account[k + 1],
               account[k + 2]);
    }
    /* What build has written is ok or empty. */
    object_mesh_judgement judgement =
        object_mesh_validate(vertices, need.vertices, indices, need.indices);
    printf("%u triangles, verdict %s\n", need.indices / 3,
           judgement.verdict == OBJECT_MESH_VERDICT_OK ? "ok" : "empty");
    return 0;
}
