"""Tests of requests and their answers, connections and contents."""
