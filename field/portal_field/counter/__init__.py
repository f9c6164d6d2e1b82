"""The counter's page: sales, refunds, vouchers, takings, and the journal of the clerks."""
