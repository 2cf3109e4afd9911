"""A Python program that hangs: rank K never leaves a loop, and the others wait for it.

    python3 python.py K             in a barrier
    python3 python.py K early       in MPI_Init, for rank K has not yet loaded MPI; below Open MPI's mpirun
"""
import os
import sys
import time


def smooth():
    while True:
        time.sleep(0.01)


def step(world, different):
    if world.Get_rank() == different:
        smooth()
    world.Barrier()


def main():
    if 'early' in sys.argv and os.environ['OMPI_COMM_WORLD_RANK'] == sys.argv[1]:
        print('rank ' + sys.argv[1], flush=True)
        smooth()
    from mpi4py import MPI
    print('rank %d' % MPI.COMM_WORLD.Get_rank(), flush=True)
    step(MPI.COMM_WORLD, int(sys.argv[1]))


if __name__ == '__main__':
    main()
