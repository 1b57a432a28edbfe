cql() power A - power a >= 9 sort "lead" power A - power a
