// The last rank leaves a barrier out: the others wait in it, and it in MPI_Finalize. In C++.
#include <mpi.h>

class World {
public:
    World(int *argc, char ***argv) {
        MPI_Init(argc, argv);
        MPI_Comm_rank(MPI_COMM_WORLD, &rank);
        MPI_Comm_size(MPI_COMM_WORLD, &ranks);
    }
    ~World() { MPI_Finalize(); }
    bool is_last() const { return rank == ranks - 1; }

private:
    int rank, ranks;
};

int main(int argc, char **argv) {
    World world(&argc, &argv);
    MPI_Barrier(MPI_COMM_WORLD);
    if (!world.is_last())
        MPI_Barrier(MPI_COMM_WORLD);
    return 0;
}
