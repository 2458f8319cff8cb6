! A ring in Fortran: each rank passes a number on with blocking calls, and each sends before it receives.
program ring
  use mpi
  implicit none
  integer :: rank, ranks, out, in, error, request, status(MPI_STATUS_SIZE)

  call MPI_Init(error)
  call MPI_Comm_rank(MPI_COMM_WORLD, rank, error)
  call MPI_Comm_size(MPI_COMM_WORLD, ranks, error)
  out = rank
  call MPI_Irecv(in, 1, MPI_INTEGER, modulo(rank - 1, ranks), 1, MPI_COMM_WORLD, request, error)
  call MPI_Send(out, 1, MPI_INTEGER, modulo(rank + 1, ranks), 1, MPI_COMM_WORLD, error)
  call MPI_Wait(request, status, error)
  call MPI_Ssend(out, 1, MPI_INTEGER, modulo(rank + 1, ranks), 2, MPI_COMM_WORLD, error)
  call MPI_Recv(in, 1, MPI_INTEGER, modulo(rank - 1, ranks), 2, MPI_COMM_WORLD, MPI_STATUS_IGNORE, error)
  call MPI_Finalize(error)
end program ring
