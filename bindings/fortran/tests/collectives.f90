! Collective operations (MPI 3.1, 5): in place, lists of types, own operations in Fortran, nonblocking ones; four ranks.
module folds
  use mpi
  implicit none
contains
  ! The largest by its absolute value; it is only made for INTEGERs.
  subroutine largest(low, high, count, type)
    integer :: count, type, low(count), high(count)
    if (type /= MPI_INTEGER) return
    where (abs(low) > abs(high)) high = low
  end subroutine

  ! The product of matrices of 2 by 2, which doesn't commute.
  subroutine multiply(low, high, count, type)
    integer :: count, type, i
    real(8) :: low(2, 2, count), high(2, 2, count)
    if (type == MPI_DATATYPE_NULL) return
    do i = 1, count
      high(:, :, i) = matmul(low(:, :, i), high(:, :, i))
    end do
  end subroutine
end module

program collectives
  use mpi
  use checking
  use folds
  implicit none
  integer :: rank, n, ierror
  call MPI_INIT(ierror)
  call MPI_COMM_RANK(MPI_COMM_WORLD, rank, ierror)
  call MPI_COMM_SIZE(MPI_COMM_WORLD, n, ierror)
  call rooted
  call in_place
  call of_blocks
  call of_types
  call folded
  call by_operations
  call nonblocking
  call finish
contains

  subroutine rooted
    integer :: x(2), all_of(n), counts(n), places(n), i, own(rank + 1), rows(n * (n + 1) / 2)
    x = merge([3, 4], [0, 0], rank == 1)
    call MPI_BCAST(x, 2, MPI_INTEGER, 1, MPI_COMM_WORLD, ierror)
    call check(all(x == [3, 4]), 'bcast')
    call MPI_GATHER(rank, 1, MPI_INTEGER, all_of, 1, MPI_INTEGER, 0, MPI_COMM_WORLD, ierror)
    if (rank == 0) call check(all(all_of == [(i, i = 0, n - 1)]), 'gather')
    call MPI_SCATTER(all_of, 1, MPI_INTEGER, i, 1, MPI_INTEGER, 0, MPI_COMM_WORLD, ierror)
    call check(i == rank, 'scatter')
    counts = [(i, i = 1, n)]
    places = [(i * (i - 1) / 2, i = 1, n)]
    own = rank
    call MPI_GATHERV(own, rank + 1, MPI_INTEGER, rows, counts, places, MPI_INTEGER, n - 1, MPI_COMM_WORLD, ierror)
    if (rank == n - 1) call check(all(rows(places + 1) == [(i, i = 0, n - 1)]), 'gatherv')
  end subroutine

  subroutine in_place
    integer :: x(2), all_of(n), i
    real :: y
    x = [rank, 1]
    call MPI_ALLREDUCE(MPI_IN_PLACE, x, 2, MPI_INTEGER, MPI_SUM, MPI_COMM_WORLD, ierror)
    call check(x(1) == n * (n - 1) / 2 .and. x(2) == n, 'allreduce in place')
    all_of = -1
    all_of(rank + 1) = rank
    call MPI_ALLGATHER(MPI_IN_PLACE, 0, MPI_DATATYPE_NULL, all_of, 1, MPI_INTEGER, MPI_COMM_WORLD, ierror)
    call check(all(all_of == [(i, i = 0, n - 1)]), 'allgather in place')
    y = real(rank)
    if (rank == 0) then
      call MPI_REDUCE(MPI_IN_PLACE, y, 1, MPI_REAL, MPI_MAX, 0, MPI_COMM_WORLD, ierror)
      call check(y == real(n - 1), 'reduce in place')
    else
      call MPI_REDUCE(y, y, 1, MPI_REAL, MPI_MAX, 0, MPI_COMM_WORLD, ierror)
    end if
  end subroutine

  subroutine of_blocks
    integer :: from(n), to(n), ones(n), places(n), i
    from = [(100 * rank + i, i = 0, n - 1)]
    call MPI_ALLTOALL(from, 1, MPI_INTEGER, to, 1, MPI_INTEGER, MPI_COMM_WORLD, ierror)
    call check(all(to == [(100 * i + rank, i = 0, n - 1)]), 'alltoall')
    ones = 1
    places = [(n - i, i = 1, n)]
    call MPI_ALLTOALLV(from, ones, places, MPI_INTEGER, to, ones, places, MPI_INTEGER, MPI_COMM_WORLD, ierror)
    call check(all(to == [(100 * (n - 1 - i) + n - 1 - rank, i = 0, n - 1)]), 'alltoallv')
  end subroutine

  ! Each member has a type of its own for each other one: a list of handles.
  subroutine of_types
    integer :: from(n), to(n), ones(n), places(n), types(n), i, request
    from = [(100 * rank + i, i = 0, n - 1)]
    ones = 1
    places = [(4 * i, i = 0, n - 1)]
    types = [(merge(MPI_INTEGER, MPI_INTEGER4, mod(i, 2) == 0), i = 1, n)]
    to = -1
    call MPI_ALLTOALLW(from, ones, places, types, to, ones, places, types, MPI_COMM_WORLD, ierror)
    call check(all(to == [(100 * i + rank, i = 0, n - 1)]), 'alltoallw')
    to = [(100 * rank + i, i = 0, n - 1)]
    call MPI_IALLTOALLW(MPI_IN_PLACE, ones, places, [MPI_DATATYPE_NULL], to, ones, places, types, MPI_COMM_WORLD, request, ierror)
    call MPI_WAIT(request, MPI_STATUS_IGNORE, ierror)
    call check(all(to == [(100 * i + rank, i = 0, n - 1)]), 'ialltoallw in place')
  end subroutine

  subroutine folded
    integer :: own, sum, pair(2), least(2), ones(n), part
    logical :: is_so, all_so
    own = rank + 1
    call MPI_SCAN(own, sum, 1, MPI_INTEGER, MPI_SUM, MPI_COMM_WORLD, ierror)
    call check(sum == own * (own + 1) / 2, 'scan')
    is_so = rank /= 2
    call MPI_ALLREDUCE(is_so, all_so, 1, MPI_LOGICAL, MPI_LAND, MPI_COMM_WORLD, ierror)
    call check(.not. all_so, 'and of logicals')
    call MPI_ALLREDUCE(is_so, all_so, 1, MPI_LOGICAL, MPI_LOR, MPI_COMM_WORLD, ierror)
    call check(all_so, 'or of logicals')
    pair = [mod(rank + 1, n), rank]
    call MPI_ALLREDUCE(pair, least, 1, MPI_2INTEGER, MPI_MINLOC, MPI_COMM_WORLD, ierror)
    call check(all(least == [0, n - 1]), 'the place of the least')
    ones = rank
    call MPI_REDUCE_SCATTER_BLOCK(ones, part, 1, MPI_INTEGER, MPI_SUM, MPI_COMM_WORLD, ierror)
    call check(part == n * (n - 1) / 2, 'reduce_scatter_block')
  end subroutine

  subroutine by_operations
    integer :: op, own, found, matrix, i
    real(8) :: mine(2, 2), product(2, 2), expected(2, 2)
    logical :: commutes
    call MPI_OP_CREATE(largest, .true., op, ierror)
    own = merge(-50, rank, rank == 1)
    call MPI_ALLREDUCE(own, found, 1, MPI_INTEGER, op, MPI_COMM_WORLD, ierror)
    call check(found == -50, 'an own operation')
    call MPI_OP_COMMUTATIVE(op, commutes, ierror)
    call check(commutes, 'it commutes')
    call MPI_OP_FREE(op, ierror)
    call check(op == MPI_OP_NULL, 'it is freed')
    call MPI_OP_CREATE(multiply, .false., op, ierror)
    call MPI_TYPE_CONTIGUOUS(4, MPI_REAL8, matrix, ierror)
    call MPI_TYPE_COMMIT(matrix, ierror)
    mine = of_rank(rank)
    call MPI_ALLREDUCE(mine, product, 1, matrix, op, MPI_COMM_WORLD, ierror)
    expected = of_rank(0)
    do i = 1, n - 1
      expected = matmul(expected, of_rank(i))
    end do
    call check(all(product == expected), 'one that does not commute')
    call MPI_OP_FREE(op, ierror)
    call MPI_TYPE_FREE(matrix, ierror)
  end subroutine

  function of_rank(of) result(matrix)
    integer, intent(in) :: of
    real(8) :: matrix(2, 2)
    matrix = reshape([1d0, real(of, 8), 2d0, 1d0], [2, 2])
  end function

  subroutine nonblocking
    integer :: requests(2), sum, x
    x = merge(9, 0, rank == 0)
    call MPI_IALLREDUCE(rank, sum, 1, MPI_INTEGER, MPI_SUM, MPI_COMM_WORLD, requests(1), ierror)
    call MPI_IBCAST(x, 1, MPI_INTEGER, 0, MPI_COMM_WORLD, requests(2), ierror)
    call MPI_WAITALL(2, requests, MPI_STATUSES_IGNORE, ierror)
    call check(sum == n * (n - 1) / 2 .and. x == 9, 'two at once')
  end subroutine
end program
