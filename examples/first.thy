lemma first: "PROP A ==> PROP B ==> PROP A"
  by assumption
lemma second "PROP A ==> PROP B ==> PROP B"
lemma wrong: "PROP A ==> PROP B"
  by assumption
oops
end
