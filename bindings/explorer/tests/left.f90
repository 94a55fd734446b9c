! Wrong: rank 0 waits for a message that never comes, and a type is never freed.
program left
   use mpi
   implicit none
   integer :: me, row, number, ierror, status(MPI_STATUS_SIZE)
   call MPI_Init(ierror)
   call MPI_Comm_rank(MPI_COMM_WORLD, me, ierror)
   call MPI_Type_contiguous(3, MPI_INTEGER, row, ierror)
   if (command_argument_count() > 0 .and. me == 0) then
      call MPI_Recv(number, 1, MPI_INTEGER, 1, 7, MPI_COMM_WORLD, status, ierror)
   end if
   call MPI_Finalize(ierror)
end program left
