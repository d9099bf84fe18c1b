$( The first example of the Metamath book: a little of arithmetic, and the proof that t = t.
   Try it:  ./mmlib outline < examples/first.mm  $)

$( The symbols. $)
$c 0 + = -> ( ) term wff |- $.
$v t r s P Q $.

$( What each variable stands for. $)
tt $f term t $.
tr $f term r $.
ts $f term s $.
wp $f wff P $.
wq $f wff Q $.

$( How terms and formulas are made. $)
tze $a term 0 $.
tpl $a term ( t + r ) $.
weq $a wff t = r $.
wim $a wff ( P -> Q ) $.

$( Two axioms, and the rule of modus ponens. $)
a1 $a |- ( t = r -> ( t = s -> r = s ) ) $.
a2 $a |- ( t + 0 ) = t $.
${
  min $e |- P $.
  maj $e |- ( P -> Q ) $.
  mp $a |- Q $.
$}

$( The theorem, with a proof of 34 labels .. $)
th1 $p |- t = t $=
  tt tze tpl tt weq tt tt weq tt a2 tt tze tpl tt weq tt tze tpl tt weq tt tt
  weq wim tt a2 tt tze tpl tt tt a1 mp mp $.

$( .. and once more, with the same proof compressed. $)
th2 $p |- t = t $=
  ( tze tpl weq a2 wim a1 mp ) ABCZADZAADZAEZJJKFLIAAGHH $.
