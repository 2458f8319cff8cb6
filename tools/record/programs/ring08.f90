! The ring by the module mpi_f08.
program ring08
  use mpi_f08
  implicit none
  integer :: rank, ranks, out, in
  type(MPI_Request) :: request

  call MPI_Init()
  call MPI_Comm_rank(MPI_COMM_WORLD, rank)
  call MPI_Comm_size(MPI_COMM_WORLD, ranks)
  out = rank
  call MPI_Irecv(in, 1, MPI_INTEGER, modulo(rank - 1, ranks), 1, MPI_COMM_WORLD, request)
  call MPI_Send(out, 1, MPI_INTEGER, modulo(rank + 1, ranks), 1, MPI_COMM_WORLD)
  call MPI_Wait(request, MPI_STATUS_IGNORE)
  call MPI_Barrier(MPI_COMM_WORLD)
  call MPI_Finalize()
end program ring08
