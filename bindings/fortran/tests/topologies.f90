! Topologies (MPI 3.1, 7): LOGICALs of grids, weights that are none, lists of types of neighbours; four ranks.
program topologies
  use mpi
  use checking
  implicit none
  integer :: rank, n, ierror
  call MPI_INIT(ierror)
  call MPI_COMM_RANK(MPI_COMM_WORLD, rank, ierror)
  call MPI_COMM_SIZE(MPI_COMM_WORLD, n, ierror)
  call grid
  call graph
  call distributed
  call finish
contains

  subroutine grid
    integer :: comm, dims(2), coords(2), source, target, kind, part, got(4), ones(4), types(4), i, size, request
    integer(kind=MPI_ADDRESS_KIND) :: places(4)
    logical :: periods(2), rings(2)
    dims = 0
    call MPI_DIMS_CREATE(n, 2, dims, ierror)
    call check(all(dims == 2), 'dimensions')
    call MPI_CART_CREATE(MPI_COMM_WORLD, 2, dims, [.true., .false.], .false., comm, ierror)
    call MPI_TOPO_TEST(comm, kind, ierror)
    call check(kind == MPI_CART, 'its kind')
    call MPI_CART_GET(comm, 2, dims, rings, coords, ierror)
    periods = [.true., .false.]
    call check(all(rings .eqv. periods) .and. all(coords == [rank / 2, mod(rank, 2)]), 'a grid')
    call MPI_CART_SHIFT(comm, 1, 1, source, target, ierror)
    call check(merge(target == MPI_PROC_NULL, source == MPI_PROC_NULL, coords(2) == 1), 'the end of a line')
    ones = 1
    types = MPI_INTEGER
    places = [(4 * i, i = 0, 3)]
    got = -1
    call MPI_NEIGHBOR_ALLTOALLW([rank, rank, rank, rank], ones, places, types, got, ones, places, types, comm, ierror)
    call check(all(got(1:2) == mod(rank + 2, 4)), 'neighbours with a type each')
    got = -1
    call MPI_NEIGHBOR_ALLGATHER_INIT(rank, 1, MPI_INTEGER, got, 1, MPI_INTEGER, comm, MPI_INFO_NULL, request, ierror)
    call MPI_START(request, ierror)
    call MPI_WAIT(request, MPI_STATUS_IGNORE, ierror)
    call check(all(got(1:2) == mod(rank + 2, 4)), 'neighbours, begun again and again')
    call MPI_REQUEST_FREE(request, ierror)
    call MPI_COMM_SPLIT_TYPE(comm, MPI_COMM_TYPE_HW_GUIDED, 0, MPI_INFO_NULL, part, ierror)
    call check(part == MPI_COMM_NULL, 'no resource is named')
    call MPI_CART_SUB(comm, [.true., .false.], part, ierror)
    call MPI_COMM_SIZE(part, size, ierror)
    call check(size == 2, 'a part')
    call MPI_COMM_FREE(part, ierror)
    call MPI_COMM_FREE(comm, ierror)
    call check(comm == MPI_COMM_NULL, 'it is freed')
  end subroutine

  subroutine graph
    integer :: comm, count, found(2), got(2)
    call MPI_GRAPH_CREATE(MPI_COMM_WORLD, 4, [2, 4, 6, 8], [1, 3, 0, 2, 1, 3, 2, 0], .false., comm, ierror)
    call MPI_GRAPH_NEIGHBORS_COUNT(comm, rank, count, ierror)
    call MPI_GRAPH_NEIGHBORS(comm, rank, 2, found, ierror)
    call check(count == 2 .and. any(found == mod(rank + 1, 4)), 'a graph')
    call MPI_NEIGHBOR_ALLGATHER(rank, 1, MPI_INTEGER, got, 1, MPI_INTEGER, comm, ierror)
    call check(all(got == found), 'what its neighbours have')
    call MPI_COMM_FREE(comm, ierror)
  end subroutine

  subroutine distributed
    integer :: comm, sources(1), targets(1), weights(1), in, out
    logical :: is_weighted
    call MPI_DIST_GRAPH_CREATE_ADJACENT(MPI_COMM_WORLD, 1, [mod(rank + 3, 4)], [7], 1, [mod(rank + 1, 4)], [9], MPI_INFO_NULL, &
        .false., comm, ierror)
    call MPI_DIST_GRAPH_NEIGHBORS_COUNT(comm, in, out, is_weighted, ierror)
    call check(in == 1 .and. out == 1 .and. is_weighted, 'weighted edges')
    call MPI_DIST_GRAPH_NEIGHBORS(comm, 1, sources, weights, 1, targets, MPI_UNWEIGHTED, ierror)
    call check(sources(1) == mod(rank + 3, 4) .and. weights(1) == 7 .and. targets(1) == mod(rank + 1, 4), 'the edges')
    call MPI_COMM_FREE(comm, ierror)
    call MPI_DIST_GRAPH_CREATE(MPI_COMM_WORLD, 1, [rank], [1], [mod(rank + 1, 4)], MPI_UNWEIGHTED, MPI_INFO_NULL, .true., comm, &
        ierror)
    call MPI_DIST_GRAPH_NEIGHBORS_COUNT(comm, in, out, is_weighted, ierror)
    call check(in == 1 .and. out == 1 .and. .not. is_weighted, 'edges without weights')
    call MPI_COMM_FREE(comm, ierror)
    call MPI_DIST_GRAPH_CREATE_ADJACENT(MPI_COMM_WORLD, 0, sources, MPI_WEIGHTS_EMPTY, 0, targets, MPI_WEIGHTS_EMPTY, &
        MPI_INFO_NULL, .false., comm, ierror)
    call MPI_DIST_GRAPH_NEIGHBORS_COUNT(comm, in, out, is_weighted, ierror)
    call check(in == 0 .and. is_weighted, 'no edges, which weigh something')
    call MPI_COMM_FREE(comm, ierror)
  end subroutine
end program
