"""ExaML: likelihoods of trees of 49 species, and a search for a better one."""

import re

from described import Program, Run, near, together

# The first 300 places of the alignment; ExaML's parser makes a binary file of them. -e is the precision at which ExaML ends to optimise, in
# units of the likelihood.
LINE = ("awk 'NR == 1 { print $1, 300; next } { print $1, substr($2, 1, 300) }' $TREE/testData/49 > short && "
        "$TREE/parser/parse-examl -s short -m DNA -n 49 > parsed && "
        "$RUN $TREE/examl/examl -s 49.binary -t $TREE/testData/49.tree -n T -e 5.0 -m %s -f %s")


def evaluated(model):
    """The likelihood of a given tree, with the model's parameters and the branches' lengths optimised."""
    judged = near(r"^Likelihood tree 0: (-\d+\.\d+)", 1e-8)
    return Run("tree, " + model, LINE % (model, "e"), judged, (1, 2, 3, 5), beside=True, alone=True, seconds=300)


def shapes(printed, other):
    """The trees that were found join the same species; lengths of branches aside."""
    trees = [re.sub(r":[0-9.]+", "", "".join(re.findall(r"^\(.*;$", it.output, re.M))) for it in (printed, other)]
    return [] if trees[0] and trees[0] == trees[1] else ["the tree %r, and under MPICH %r" % tuple(trees)]


PROGRAM = Program(
    "examl", "3.0.22", "main/e/examl/examl_3.0.22.orig.tar.gz", "802e673b0c2ea83fdbe6b060048d83f22b6978933a04be64fb9b4334fe318ca3",
    "make -C parser -f Makefile.SSE3.gcc && make -j$JOBS -C examl -f Makefile.SSE3.gcc",
    [evaluated("GAMMA"), evaluated("PSR"),
     Run("search", LINE % ("PSR -D", "d") + " && cat ExaML_result.T",
         together(near(r"^Likelihood +: (-\d+\.\d+)", 1e-8), shapes), (2,), beside=True, alone=True, seconds=600)],
    "likelihoods equal to that under MPICH on one rank", ["examl/examl"])
