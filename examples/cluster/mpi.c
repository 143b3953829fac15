/* Estimates the percolation threshold with MPI: mpirun -n 4 mpi. Each process runs its share of the tasks. */
#include <mpi.h>
#include <stdio.h>

#include "nanorand.h"
#include "percolation.h"

int main(int argc, char **argv)
{
    sums own[SIDES] = {{0, 0, 0}}, all[SIDES] = {{0, 0, 0}};
    int rank, processes;
    MPI_Init(&argc, &argv);
    MPI_Comm_rank(MPI_COMM_WORLD, &rank);
    MPI_Comm_size(MPI_COMM_WORLD, &processes);
    for (int task = rank; task < TASKS; task += processes) {
        uint8_t status = add_task((uint64_t)task, own);
        if (status != NANORAND_OK) {
            fprintf(stderr, "mpi: task %d failed with status %d\n", task, status);
            MPI_Abort(MPI_COMM_WORLD, 1);
        }
    }
    MPI_Reduce(own, all, SIDES * sizeof(sums) / sizeof(uint64_t), MPI_UINT64_T, MPI_SUM, 0, MPI_COMM_WORLD);
    if (rank == 0) {
        print_table(all);
    }
    return MPI_Finalize();
}
