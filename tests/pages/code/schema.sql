{% for table in tables %}CREATE TABLE {{ table.name }} (
{% for column in table.columns %}  {{ column.name }} {{ column.type }}{% if column.key %} PRIMARY KEY{% elif column.null %}{% else %} NOT NULL{% endif %},
{% endfor %}  made timestamp
);
{% endfor %}
