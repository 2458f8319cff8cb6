/* Calls that a trace has by other words, or by several lines: each rank passes something to the next one by each of
 * them, and takes part in each collective. */
#include <mpi.h>
#include <stdlib.h>

enum { MOST = 16, MANY = 70, TAG = 1 };
static int rank, ranks, left, right, out[MANY], in[MANY];
static MPI_Comm comm;

static void ready_sends(void) {
    MPI_Request requests[2];
    MPI_Irecv(&in[0], 1, MPI_INT, left, TAG, comm, &requests[0]);
    MPI_Barrier(comm);
    MPI_Rsend(out, 1, MPI_INT, right, TAG, comm);
    MPI_Wait(&requests[0], MPI_STATUS_IGNORE);
    MPI_Irecv(&in[0], 1, MPI_INT, left, TAG, comm, &requests[0]);
    MPI_Barrier(comm);
    MPI_Irsend(out, 1, MPI_INT, right, TAG, comm, &requests[1]);
    MPI_Waitall(2, requests, MPI_STATUSES_IGNORE);
    MPI_Sendrecv_replace(out, 1, MPI_INT, right, TAG, left, TAG, comm, MPI_STATUS_IGNORE);
}

static void buffered_sends(void) {
    int size = MANY * (sizeof(int) + MPI_BSEND_OVERHEAD);
    void *buffer = malloc(size);
    MPI_Request request;
    MPI_Buffer_attach(buffer, size);
    MPI_Bsend(out, 1, MPI_INT, right, TAG, comm);
    MPI_Ibsend(out, 1, MPI_INT, right, TAG, comm, &request);
    MPI_Wait(&request, MPI_STATUS_IGNORE);
    MPI_Recv(in, 1, MPI_INT, left, TAG, comm, MPI_STATUS_IGNORE);
    MPI_Recv(in, 1, MPI_INT, left, TAG, comm, MPI_STATUS_IGNORE);
    MPI_Buffer_detach(&buffer, &size);
    free(buffer);
}

static void start_many(MPI_Request requests[2 * MANY]) {
    for (int i = 0; i < MANY; i++) {
        MPI_Irecv(&in[i], 1, MPI_INT, left, i, comm, &requests[i]);
        MPI_Isend(&out[i], 1, MPI_INT, right, i, comm, &requests[MANY + i]);
    }
}

static void many_requests(void) {
    MPI_Request requests[2 * MANY];
    int done, chosen, places[2 * MANY];
    start_many(requests);
    MPI_Waitall(2 * MANY, requests, MPI_STATUSES_IGNORE);
    start_many(requests);
    for (int i = 0; i < 2 * MANY; i++)
        MPI_Waitany(2 * MANY, requests, &chosen, MPI_STATUS_IGNORE);
    start_many(requests);
    for (int rest = 2 * MANY; rest > 0; rest -= done)
        MPI_Testsome(2 * MANY, requests, &done, places, MPI_STATUSES_IGNORE);
    start_many(requests);
    MPI_Barrier(comm);
    for (int rest = 2 * MANY; rest > 0; rest -= done)
        MPI_Waitsome(2 * MANY, requests, &done, places, MPI_STATUSES_IGNORE);
    start_many(requests);
    do
        MPI_Testall(2 * MANY, requests, &done, MPI_STATUSES_IGNORE);
    while (!done);
}

static void matched_probes(void) {
    MPI_Message message;
    MPI_Request requests[2];
    int found;
    MPI_Isend(out, 1, MPI_INT, right, TAG, comm, &requests[0]);
    do
        MPI_Improbe(left, MPI_ANY_TAG, comm, &found, &message, MPI_STATUS_IGNORE);
    while (!found);
    MPI_Imrecv(in, 1, MPI_INT, &message, &requests[1]);
    MPI_Waitall(2, requests, MPI_STATUSES_IGNORE);
}

static void cancelled(void) {
    MPI_Request request;
    MPI_Irecv(in, 1, MPI_INT, left, TAG + 1, comm, &request);
    MPI_Cancel(&request);
    MPI_Wait(&request, MPI_STATUS_IGNORE);
}

/* What the collectives with counts and places take. */
static int counts[MOST], places[MOST], offsets[MOST];
static MPI_Datatype types[MOST];

static void collectives(void) {
    MPI_Gather(out, 1, MPI_INT, in, 1, MPI_INT, 1, comm);
    MPI_Gatherv(out, 1, MPI_INT, in, counts, places, MPI_INT, 1, comm);
    MPI_Scatter(in, 1, MPI_INT, out, 1, MPI_INT, 1, comm);
    MPI_Scatterv(in, counts, places, MPI_INT, out, 1, MPI_INT, 1, comm);
    MPI_Allgather(out, 1, MPI_INT, in, 1, MPI_INT, comm);
    MPI_Allgatherv(out, 1, MPI_INT, in, counts, places, MPI_INT, comm);
    MPI_Alltoall(out, 1, MPI_INT, in, 1, MPI_INT, comm);
    MPI_Alltoallv(out, counts, places, MPI_INT, in, counts, places, MPI_INT, comm);
    MPI_Alltoallw(out, counts, offsets, types, in, counts, offsets, types, comm);
    MPI_Reduce(out, in, 1, MPI_INT, MPI_SUM, 1, comm);
    MPI_Allreduce(out, in, 1, MPI_INT, MPI_SUM, comm);
    MPI_Reduce_scatter(out, in, counts, MPI_INT, MPI_SUM, comm);
    MPI_Reduce_scatter_block(out, in, 1, MPI_INT, MPI_SUM, comm);
    MPI_Scan(out, in, 1, MPI_INT, MPI_SUM, comm);
    MPI_Exscan(out, in, 1, MPI_INT, MPI_SUM, comm);
}

static void started_collectives(void) {
    MPI_Request requests[16];
    MPI_Ibarrier(comm, &requests[0]);
    MPI_Ibcast(&in[0], 1, MPI_INT, 1, comm, &requests[1]);
    MPI_Igather(out, 1, MPI_INT, &in[4], 1, MPI_INT, 1, comm, &requests[2]);
    MPI_Igatherv(out, 1, MPI_INT, &in[8], counts, places, MPI_INT, 1, comm, &requests[3]);
    MPI_Iscatter(&out[4], 1, MPI_INT, &in[12], 1, MPI_INT, 1, comm, &requests[4]);
    MPI_Iscatterv(&out[4], counts, places, MPI_INT, &in[13], 1, MPI_INT, 1, comm, &requests[5]);
    MPI_Iallgather(out, 1, MPI_INT, &in[16], 1, MPI_INT, comm, &requests[6]);
    MPI_Iallgatherv(out, 1, MPI_INT, &in[20], counts, places, MPI_INT, comm, &requests[7]);
    MPI_Ialltoall(out, 1, MPI_INT, &in[24], 1, MPI_INT, comm, &requests[8]);
    MPI_Ialltoallw(out, counts, offsets, types, &in[28], counts, offsets, types, comm, &requests[9]);
    MPI_Ireduce(out, &in[32], 1, MPI_INT, MPI_SUM, 1, comm, &requests[10]);
    MPI_Iallreduce(out, &in[36], 1, MPI_INT, MPI_SUM, comm, &requests[11]);
    MPI_Ireduce_scatter(out, &in[40], counts, MPI_INT, MPI_SUM, comm, &requests[12]);
    MPI_Ireduce_scatter_block(out, &in[44], 1, MPI_INT, MPI_SUM, comm, &requests[13]);
    MPI_Iscan(out, &in[48], 1, MPI_INT, MPI_SUM, comm, &requests[14]);
    MPI_Iexscan(out, &in[52], 1, MPI_INT, MPI_SUM, comm, &requests[15]);
    MPI_Waitall(16, requests, MPI_STATUSES_IGNORE);
}

static void use(MPI_Comm made) {
    if (made == MPI_COMM_NULL)
        return;
    MPI_Barrier(made);
    MPI_Comm_free(&made);
}

static void communicators(void) {
    MPI_Comm made, grid;
    int dims[2] = {2, ranks / 2}, periods[2] = {0}, remain[2] = {0, 1}, one = 1, index[MOST], edges[MOST];
    for (int i = 0; i < ranks; i++)
        index[i] = i + 1, edges[i] = (i + 1) % ranks;
    MPI_Comm_dup_with_info(comm, MPI_INFO_NULL, &made);
    use(made);
    MPI_Comm_split_type(comm, MPI_COMM_TYPE_SHARED, -rank, MPI_INFO_NULL, &made);
    use(made);
    MPI_Cart_create(comm, 2, dims, periods, 1, &grid);
    MPI_Cart_sub(grid, remain, &made);
    use(made);
    use(grid);
    MPI_Graph_create(comm, ranks, index, edges, 0, &made);
    use(made);
    MPI_Dist_graph_create(comm, 1, &rank, &one, &right, MPI_UNWEIGHTED, MPI_INFO_NULL, 0, &made);
    use(made);
    MPI_Dist_graph_create_adjacent(comm, 1, &left, MPI_UNWEIGHTED, 1, &right, MPI_UNWEIGHTED, MPI_INFO_NULL, 0,
                                   &made);
    use(made);
}

int main(int argc, char **argv) {
    MPI_Init(&argc, &argv);
    MPI_Comm_dup(MPI_COMM_WORLD, &comm);
    MPI_Comm_rank(comm, &rank);
    MPI_Comm_size(comm, &ranks);
    left = (rank + ranks - 1) % ranks;
    right = (rank + 1) % ranks;
    for (int i = 0; i < ranks; i++)
        counts[i] = 1, places[i] = i, offsets[i] = i * (int)sizeof(int), types[i] = MPI_INT;
    ready_sends();
    buffered_sends();
    many_requests();
    matched_probes();
    cancelled();
    collectives();
    started_collectives();
    communicators();
    MPI_Finalize();
    return 0;
}
