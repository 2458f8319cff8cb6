! What a call from Fortran costs by the module mpi_f08: a line for each loop, with the nanoseconds a call, of the best
! of many pieces.
program overhead08
  use mpi_f08
  implicit none
  integer, parameter :: rounds = 400, pieces = 50
  integer :: rank, i, piece, data
  type(MPI_Request) :: request
  logical :: done
  double precision :: start, best(2)

  call MPI_Init()
  call MPI_Comm_rank(MPI_COMM_WORLD, rank)
  data = 0
  best = 1d9
  call MPI_Irecv(data, 1, MPI_INTEGER, 1 - rank, 2, MPI_COMM_WORLD, request)
  do piece = 1, pieces
    start = MPI_Wtime()
    do i = 1, rounds
      call MPI_Send(data, 1, MPI_INTEGER, MPI_PROC_NULL, 1, MPI_COMM_WORLD)
    end do
    best(1) = min(best(1), (MPI_Wtime() - start) / rounds)
    start = MPI_Wtime()
    do i = 1, rounds
      call MPI_Test(request, done, MPI_STATUS_IGNORE)
    end do
    best(2) = min(best(2), (MPI_Wtime() - start) / rounds)
  end do
  if (rank == 0) then
    print '(a, i0)', 'Send to MPI_PROC_NULL'//achar(9), nint(1d9 * best(1))
    print '(a, i0)', 'Test that finds nothing'//achar(9), nint(1d9 * best(2))
  end if
  call MPI_Cancel(request)
  call MPI_Wait(request, MPI_STATUS_IGNORE)
  call MPI_Finalize()
end program overhead08
