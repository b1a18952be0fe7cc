claim a: "PROP A"
by assumption
lemma a: "PROP A ==> PROP A" by assumption
lemma a: "PROP B ==> PROP B"
oops
lemma b: "PROP A ==> PROP B"
  by assumption
end
oops
lemma c: "A ==> A"
end
end
lemma d: "PROP A
