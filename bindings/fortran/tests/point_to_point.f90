! Sends and receives (MPI 3.1, 3): statuses, wildcards, what is ignored, probes, counts, truncation; two ranks.
program point_to_point
  use mpi
  use checking
  implicit none
  integer, parameter :: tag = 5
  integer :: rank, ierror
  call MPI_INIT(ierror)
  call MPI_COMM_RANK(MPI_COMM_WORLD, rank, ierror)
  if (rank == 0) call sends
  if (rank == 1) call receives
  call exchanges
  call buffers
  call nobody
  call finish
contains

  subroutine sends
    real :: x(4) = [1.5, 2.5, 3.5, 4.5]
    character(len=6) :: word = 'blanks'
    logical :: truths(3) = [.true., .false., .true.]
    complex(kind(1d0)) :: z = (1d0, -2d0)
    call MPI_SEND(x, 4, MPI_REAL, 1, tag, MPI_COMM_WORLD, ierror)
    call MPI_SSEND(word, 6, MPI_CHARACTER, 1, tag + 1, MPI_COMM_WORLD, ierror)
    call MPI_SEND(truths, 3, MPI_LOGICAL, 1, tag + 2, MPI_COMM_WORLD, ierror)
    call MPI_SEND(z, 1, MPI_DOUBLE_COMPLEX, 1, tag + 3, MPI_COMM_WORLD, ierror)
    call MPI_SEND(x(2:4:2), 2, MPI_REAL, 1, tag + 4, MPI_COMM_WORLD, ierror)
    call MPI_SEND(x, 4, MPI_REAL, 1, tag + 5, MPI_COMM_WORLD, ierror)
  end subroutine

  subroutine receives
    integer :: status(MPI_STATUS_SIZE), count, code, class, message
    logical :: flag
    real :: x(9)
    character(len=6) :: word
    logical :: truths(3)
    complex(kind(1d0)) :: z
    status(MPI_ERROR) = 77
    call MPI_PROBE(MPI_ANY_SOURCE, tag, MPI_COMM_WORLD, status, ierror)
    call MPI_GET_COUNT(status, MPI_REAL, count, ierror)
    call check(count == 4, 'the count that was probed')
    call MPI_RECV(x, 9, MPI_REAL, MPI_ANY_SOURCE, MPI_ANY_TAG, MPI_COMM_WORLD, status, ierror)
    call check(status(MPI_SOURCE) == 0 .and. status(MPI_TAG) == tag, 'source and tag')
    call check(status(MPI_ERROR) == 77, 'the error stays as it was')
    call check(ierror == MPI_SUCCESS .and. all(x(1:4) == [1.5, 2.5, 3.5, 4.5]), 'the data')
    call MPI_GET_ELEMENTS(status, MPI_REAL, count, ierror)
    call check(count == 4, 'elements')
    call MPI_TEST_CANCELLED(status, flag, ierror)
    call check(.not. flag, 'it is not cancelled')
    call MPI_RECV(word, 6, MPI_CHARACTER, 0, tag + 1, MPI_COMM_WORLD, MPI_STATUS_IGNORE, ierror)
    call check(word == 'blanks', 'characters')
    call MPI_RECV(truths, 3, MPI_LOGICAL, 0, tag + 2, MPI_COMM_WORLD, status, ierror)
    call check(all(truths .eqv. [.true., .false., .true.]), 'logicals')
    call MPI_RECV(z, 1, MPI_DOUBLE_COMPLEX, 0, tag + 3, MPI_COMM_WORLD, status, ierror)
    call check(z == (1d0, -2d0), 'a complex number')
    call MPI_MPROBE(0, tag + 4, MPI_COMM_WORLD, message, status, ierror)
    call check(message /= MPI_MESSAGE_NULL, 'a message that was taken out')
    call MPI_MRECV(x, 2, MPI_REAL, message, status, ierror)
    call check(message == MPI_MESSAGE_NULL .and. all(x(1:2) == [2.5, 4.5]), 'its data')
    call MPI_COMM_SET_ERRHANDLER(MPI_COMM_WORLD, MPI_ERRORS_RETURN, ierror)
    call MPI_RECV(x, 2, MPI_REAL, 0, tag + 5, MPI_COMM_WORLD, status, code)
    call MPI_ERROR_CLASS(code, class, ierror)
    call check(class == MPI_ERR_TRUNCATE, 'a message that is too long')
    call MPI_COMM_SET_ERRHANDLER(MPI_COMM_WORLD, MPI_ERRORS_ARE_FATAL, ierror)
  end subroutine

  subroutine exchanges
    integer :: status(MPI_STATUS_SIZE), own, others
    logical :: flag
    if (rank > 1) return
    own = rank
    call MPI_SENDRECV(own, 1, MPI_INTEGER, 1 - rank, 1, others, 1, MPI_INTEGER, 1 - rank, 1, MPI_COMM_WORLD, status, ierror)
    call check(others == 1 - rank, 'sendrecv')
    call MPI_SENDRECV_REPLACE(own, 1, MPI_INTEGER, 1 - rank, 2, 1 - rank, 2, MPI_COMM_WORLD, status, ierror)
    call check(own == 1 - rank .and. status(MPI_TAG) == 2, 'sendrecv_replace')
    call MPI_IPROBE(MPI_ANY_SOURCE, 99, MPI_COMM_WORLD, flag, status, ierror)
    call check(.not. flag, 'nothing with such a tag')
  end subroutine

  subroutine buffers
    integer, parameter :: bytes = 400 + MPI_BSEND_OVERHEAD
    integer :: room(bytes / 4 + 1), own(100), others(100), size, status(MPI_STATUS_SIZE)
    if (rank > 1) return
    own = rank
    call MPI_BUFFER_ATTACH(room, bytes, ierror)
    call MPI_BSEND(own, 100, MPI_INTEGER, 1 - rank, 3, MPI_COMM_WORLD, ierror)
    call MPI_RECV(others, 100, MPI_INTEGER, 1 - rank, 3, MPI_COMM_WORLD, status, ierror)
    call check(all(others == 1 - rank), 'a buffered send')
    call MPI_BUFFER_DETACH(room, size, ierror)
    call check(size == bytes, 'the size of the buffer')
  end subroutine

  subroutine nobody
    integer :: status(MPI_STATUS_SIZE), x, count
    x = 7
    call MPI_RECV(x, 1, MPI_INTEGER, MPI_PROC_NULL, MPI_ANY_TAG, MPI_COMM_WORLD, status, ierror)
    call MPI_GET_COUNT(status, MPI_INTEGER, count, ierror)
    call check(x == 7 .and. count == 0, 'nothing comes of no process')
    call check(status(MPI_SOURCE) == MPI_PROC_NULL .and. status(MPI_TAG) == MPI_ANY_TAG, 'its status')
  end subroutine
end program
