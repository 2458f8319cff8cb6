! What a call from Fortran costs by the module mpi: a line for each loop, with the nanoseconds a call, of the best
! of many pieces.
program overhead
  use mpi
  implicit none
  integer, parameter :: rounds = 400, pieces = 50
  integer :: rank, i, piece, data, error, request, status(MPI_STATUS_SIZE)
  logical :: done
  double precision :: start, best(2)

  call MPI_Init(error)
  call MPI_Comm_rank(MPI_COMM_WORLD, rank, error)
  data = 0
  best = 1d9
  call MPI_Irecv(data, 1, MPI_INTEGER, 1 - rank, 2, MPI_COMM_WORLD, request, error)
  do piece = 1, pieces
    start = MPI_Wtime()
    do i = 1, rounds
      call MPI_Send(data, 1, MPI_INTEGER, MPI_PROC_NULL, 1, MPI_COMM_WORLD, error)
    end do
    best(1) = min(best(1), (MPI_Wtime() - start) / rounds)
    start = MPI_Wtime()
    do i = 1, rounds
      call MPI_Test(request, done, status, error)
    end do
    best(2) = min(best(2), (MPI_Wtime() - start) / rounds)
  end do
  if (rank == 0) then
    print '(a, i0)', 'Send to MPI_PROC_NULL'//achar(9), nint(1d9 * best(1))
    print '(a, i0)', 'Test that finds nothing'//achar(9), nint(1d9 * best(2))
  end if
  call MPI_Cancel(request, error)
  call MPI_Wait(request, status, error)
  call MPI_Finalize(error)
end program overhead
