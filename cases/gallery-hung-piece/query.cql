cql() flipcolor { btm move from A power A >= power a
  line --> . --> {wtm move from a capture [QRBN]} --> {power a - power A >= 2}{3} }
