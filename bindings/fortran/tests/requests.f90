! Requests (MPI 3.1, 3.7, 3.9, 12.2): indexes begin with 1; lists of statuses; persistent and generalised ones; two ranks.
module functions
  use mpi
  implicit none
  integer :: queried = 0, freed = 0, cancelled = 0
contains
  subroutine query(extra_state, status, ierror)
    integer(kind=MPI_ADDRESS_KIND) :: extra_state
    integer :: status(MPI_STATUS_SIZE), ierror
    queried = queried + int(extra_state)
    call MPI_STATUS_SET_ELEMENTS(status, MPI_INTEGER, 3, ierror)
    call MPI_STATUS_SET_CANCELLED(status, .true., ierror)
    status(MPI_TAG) = 42
    ierror = MPI_SUCCESS
  end subroutine

  subroutine release(extra_state, ierror)
    integer(kind=MPI_ADDRESS_KIND) :: extra_state
    integer :: ierror
    freed = freed + int(extra_state)
    extra_state = 0
    ierror = MPI_SUCCESS
  end subroutine

  subroutine cancel(extra_state, complete, ierror)
    integer(kind=MPI_ADDRESS_KIND) :: extra_state
    logical :: complete
    integer :: ierror
    if (.not. complete) cancelled = cancelled + int(extra_state)
    ierror = MPI_SUCCESS
  end subroutine
end module

program requests
  use mpi
  use checking
  use functions
  implicit none
  integer :: rank, ierror, other
  call MPI_INIT(ierror)
  call MPI_COMM_RANK(MPI_COMM_WORLD, rank, ierror)
  other = 1 - rank
  call lists
  call indexes
  call some
  call persistent
  call generalised
  call nulls
  call finish
contains

  subroutine lists
    integer :: own(3), others(3), requests(6), statuses(MPI_STATUS_SIZE, 6), i
    logical :: flag
    own = [1, 2, 3] + 10 * rank
    do i = 1, 3
      call MPI_IRECV(others(i), 1, MPI_INTEGER, other, i, MPI_COMM_WORLD, requests(i), ierror)
      call MPI_ISEND(own(i), 1, MPI_INTEGER, other, i, MPI_COMM_WORLD, requests(3 + i), ierror)
    end do
    call MPI_WAITALL(6, requests, statuses, ierror)
    call check(all(others == [1, 2, 3] + 10 * other), 'the data of all')
    call check(all(statuses(MPI_TAG, 1:3) == [1, 2, 3]) .and. all(statuses(MPI_SOURCE, 1:3) == other), 'the statuses of all')
    call check(all(requests == MPI_REQUEST_NULL), 'all are null')
    call MPI_IRECV(others, 1, MPI_INTEGER, other, 9, MPI_COMM_WORLD, requests(1), ierror)
    call MPI_SEND(own, 1, MPI_INTEGER, other, 9, MPI_COMM_WORLD, ierror)
    flag = .false.
    do while (.not. flag)
      call MPI_TESTALL(1, requests, flag, MPI_STATUSES_IGNORE, ierror)
    end do
    call check(requests(1) == MPI_REQUEST_NULL, 'testall')
  end subroutine

  subroutine indexes
    integer :: x(2), requests(3), index, status(MPI_STATUS_SIZE), own
    logical :: flag
    own = 4
    requests = MPI_REQUEST_NULL
    call MPI_IRECV(x(1), 1, MPI_INTEGER, other, 20, MPI_COMM_WORLD, requests(1), ierror)
    call MPI_IRECV(x(2), 1, MPI_INTEGER, other, 21, MPI_COMM_WORLD, requests(3), ierror)
    call MPI_SEND(own, 1, MPI_INTEGER, other, 21, MPI_COMM_WORLD, ierror)
    call MPI_WAITANY(3, requests, index, status, ierror)
    call check(index == 3 .and. status(MPI_TAG) == 21 .and. x(2) == 4, 'waitany')
    call MPI_BARRIER(MPI_COMM_WORLD, ierror)
    call MPI_SEND(own, 1, MPI_INTEGER, other, 20, MPI_COMM_WORLD, ierror)
    flag = .false.
    do while (.not. flag)
      call MPI_TESTANY(3, requests, index, flag, status, ierror)
    end do
    call check(index == 1 .and. status(MPI_TAG) == 20, 'testany')
    call MPI_WAITANY(3, requests, index, MPI_STATUS_IGNORE, ierror)
    call check(index == MPI_UNDEFINED, 'waitany of none')
  end subroutine

  subroutine some
    integer :: x(3), requests(4), count, places(4), statuses(MPI_STATUS_SIZE, 4), own, i
    own = 6
    requests = MPI_REQUEST_NULL
    do i = 1, 3
      call MPI_IRECV(x(i), 1, MPI_INTEGER, other, 30 + i, MPI_COMM_WORLD, requests(i + 1), ierror)
    end do
    call MPI_SEND(own, 1, MPI_INTEGER, other, 32, MPI_COMM_WORLD, ierror)
    call MPI_WAITSOME(4, requests, count, places, statuses, ierror)
    call check(count == 1 .and. places(1) == 3 .and. statuses(MPI_TAG, 1) == 32, 'waitsome')
    call MPI_BARRIER(MPI_COMM_WORLD, ierror)
    call MPI_SEND(own, 1, MPI_INTEGER, other, 33, MPI_COMM_WORLD, ierror)
    count = 0
    do while (count == 0)
      call MPI_TESTSOME(4, requests, count, places, statuses, ierror)
    end do
    call check(count == 1 .and. places(1) == 4, 'testsome')
    call MPI_CANCEL(requests(2), ierror)
    call MPI_WAIT(requests(2), statuses, ierror)
    call MPI_WAITSOME(4, requests, count, places, MPI_STATUSES_IGNORE, ierror)
    call check(count == MPI_UNDEFINED, 'waitsome of none')
    call MPI_BARRIER(MPI_COMM_WORLD, ierror)
  end subroutine

  subroutine persistent
    ! The calls that start requests don't name them.
    integer, volatile :: own, others
    integer :: requests(2), i
    logical :: flag
    call MPI_SEND_INIT(own, 1, MPI_INTEGER, other, 40, MPI_COMM_WORLD, requests(1), ierror)
    call MPI_RECV_INIT(others, 1, MPI_INTEGER, other, 40, MPI_COMM_WORLD, requests(2), ierror)
    do i = 1, 3
      own = 100 * rank + i
      call MPI_STARTALL(2, requests, ierror)
      call MPI_WAITALL(2, requests, MPI_STATUSES_IGNORE, ierror)
      call check(others == 100 * other + i, 'a persistent request')
    end do
    call MPI_REQUEST_GET_STATUS(requests(1), flag, MPI_STATUS_IGNORE, ierror)
    call check(flag, 'it is inactive')
    call MPI_REQUEST_FREE(requests(1), ierror)
    call MPI_REQUEST_FREE(requests(2), ierror)
    call check(all(requests == MPI_REQUEST_NULL), 'they are freed')
  end subroutine

  subroutine generalised
    integer(kind=MPI_ADDRESS_KIND), volatile :: state
    integer :: request, status(MPI_STATUS_SIZE), count
    logical :: flag
    state = 5
    call MPI_GREQUEST_START(query, release, cancel, state, request, ierror)
    call MPI_CANCEL(request, ierror)
    call check(cancelled == 5, 'the function that cancels')
    call MPI_GREQUEST_COMPLETE(request, ierror)
    call MPI_WAIT(request, status, ierror)
    call MPI_GET_COUNT(status, MPI_INTEGER, count, ierror)
    call MPI_TEST_CANCELLED(status, flag, ierror)
    call check(queried == 5 .and. freed == 5, 'the functions that query and free')
    call check(state == 0, 'what a function changed')
    call check(status(MPI_TAG) == 42 .and. count == 3 .and. flag, 'the status that was set')
  end subroutine

  subroutine nulls
    integer :: request, status(MPI_STATUS_SIZE)
    logical :: flag
    request = MPI_REQUEST_NULL
    call MPI_TEST(request, flag, status, ierror)
    call check(flag .and. status(MPI_SOURCE) == MPI_ANY_SOURCE .and. status(MPI_TAG) == MPI_ANY_TAG, 'a null request')
  end subroutine
end program
